//! The word that a misspelt one was perhaps meant to be.

use crate::Quoted;

/// `; is X meant?` for the candidate that is nearest to a word, if one is near.
pub fn hint<'a>(word: &str, candidates: impl IntoIterator<Item = &'a str>) -> String {
    // A third of the letters may be wrong, but never all of them.
    let farthest = word.len().div_ceil(3).min(3).min(word.len().saturating_sub(1));
    let near = candidates.into_iter().map(|candidate| (distance(word, candidate), candidate));
    match near.filter(|(distance, _)| *distance <= farthest).min() {
        Some((_, candidate)) => format!("; is `{}` meant?", Quoted(candidate)),
        None => String::new(),
    }
}

/// How many bytes have to be put in, taken out or exchanged to come from one word to the other.
fn distance(left: &str, right: &str) -> usize {
    let mut row: Vec<usize> = (0..=right.len()).collect();
    for (at, byte) in left.bytes().enumerate() {
        row = next_row(&row, at + 1, byte, right.as_bytes());
    }
    row[right.len()]
}

/// The distances of one byte more of the left word from each beginning of the right one.
fn next_row(row: &[usize], first: usize, byte: u8, right: &[u8]) -> Vec<usize> {
    let mut next = vec![first];
    for (at, other) in right.iter().enumerate() {
        let exchanged = row[at] + usize::from(byte != *other);
        next.push(exchanged.min(row[at + 1] + 1).min(next[at] + 1));
    }
    next
}

#[cfg(test)]
mod tests {
    use super::{distance, hint};

    #[test]
    fn distances() {
        assert_eq!(distance("", "abc"), 3);
        assert_eq!(distance("module", "modul"), 1);
        assert_eq!(distance("needs", "nedes"), 2);
        assert_eq!(distance("same", "same"), 0);
    }

    #[test]
    fn only_a_near_word_is_named() {
        assert_eq!(hint("modul", ["module", "group"]), "; is `module` meant?");
        assert_eq!(
            hint("lib/buton.js", ["lib/button.js", "lib/a.js"]),
            "; is `lib/button.js` meant?"
        );
        assert_eq!(hint("x", ["module", "group"]), "");
        assert_eq!(hint("module", []), "");
    }
}
