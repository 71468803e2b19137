//! Names: texts of a wanted length, with characters of several bytes where it matters.

use crate::rng::Rng;

/// Characters of one to four bytes.
pub const CHARACTERS: [&str; 8] = ["a", "~", "\u{7f}", "é", "߿", "€", "\u{ffff}", "😀"];

/// A text of exactly so many bytes.
pub fn of_length(rng: &mut Rng, length: usize) -> Vec<u8> {
    let mut text = String::new();
    let plain = rng.one_in(2);
    while text.len() < length {
        let character = if plain { "e" } else { rng.pick(&CHARACTERS) };
        text += if text.len() + character.len() <= length { character } else { "e" };
    }
    text.into_bytes()
}

/// A short text, sometimes none.
pub fn short(rng: &mut Rng) -> Vec<u8> {
    let length = rng.pick(&[0, 1, 1, 2, 3, 5, 8]);
    of_length(rng, length)
}

/// Up to so many names that strictly ascend in byte order, this one among them; and its number.
pub fn ascending(rng: &mut Rng, name: Vec<u8>, most: usize) -> (Vec<Vec<u8>>, u32) {
    let mut names: Vec<Vec<u8>> = (0..rng.at(most)).map(|_| near(rng, &name)).collect();
    names.push(name.clone());
    names.sort_unstable();
    names.dedup();
    let number = names.iter().position(|one| *one == name).unwrap_or(0);
    (names, u32::try_from(number).unwrap_or(0))
}

/// A name that shares its beginning with another, or has little to do with it.
fn near(rng: &mut Rng, name: &[u8]) -> Vec<u8> {
    let text = str::from_utf8(name).unwrap_or("");
    let begin: String = text.chars().take(rng.at(3)).collect();
    match rng.below(4) {
        0 => [name, &short(rng)].concat(),
        1 => [begin.as_bytes(), &short(rng)].concat(),
        2 => text.chars().take(rng.at(text.chars().count() + 1)).collect::<String>().into_bytes(),
        _ => short(rng),
    }
}
