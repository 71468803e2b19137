//! Ids.

use crate::rng::Rng;

/// Bytes whose differences are often 9, 10 or 11.
const BYTES: [u8; 10] = *b"abjklstuv/";

/// An id of these bytes.
pub fn plain(rng: &mut Rng, longest: usize) -> Vec<u8> {
    let length = rng.at(longest + 1);
    (0..length).map(|_| rng.pick(&BYTES)).collect()
}

/// So many ids, no two the same, that share beginnings.
pub fn distinct(rng: &mut Rng, count: usize) -> Vec<Vec<u8>> {
    let longest = rng.pick(&[2, 3, 4, 6]);
    let folders: Vec<Vec<u8>> = (0..3).map(|_| plain(rng, longest)).collect();
    let mut ids: Vec<Vec<u8>> = Vec::new();
    while ids.len() < count {
        let mut id = if rng.one_in(3) { Vec::new() } else { folders[rng.at(3)].clone() };
        id.extend(plain(rng, longest));
        if !ids.contains(&id) {
            ids.push(id);
        }
    }
    ids
}

/// Ids in a row whose neighbours have similarities that differ by little.
pub fn row(rng: &mut Rng, count: usize) -> Vec<Vec<u8>> {
    let base = rng.between(11, 60);
    let mut ids: Vec<Vec<u8>> = vec![(0..12).map(|_| rng.pick(&BYTES)).collect()];
    while ids.len() < count {
        let step = rng.pick(&[0, 1, 8, 9, 9, 10, 10, 10, 11, 11, 12, 19, 20, 21]);
        let wanted = if rng.one_in(2) { base + step } else { base.saturating_sub(step) };
        let next = with_similarity(rng, &ids[ids.len() - 1], wanted);
        ids.push(next);
    }
    ids.truncate(count);
    ids
}

/// An id with this similarity to another, or as near to it as the other's length lets it.
fn with_similarity(rng: &mut Rng, other: &[u8], mut wanted: u64) -> Vec<u8> {
    let mut id = Vec::new();
    for &byte in other {
        let score = wanted.min(10);
        wanted -= score;
        let gap = if score == 0 { rng.between(10, 20) } else { 10 - score };
        let gap = u8::try_from(gap).unwrap_or(0);
        id.push(if byte > b'Z' { byte - gap } else { byte + gap });
    }
    id.extend(plain(rng, 12 - id.len().min(12)));
    id
}

/// A text of all kinds of UTF-8, of at most so many bytes.
pub fn any_text(rng: &mut Rng, longest: usize) -> Vec<u8> {
    let mut text = String::new();
    let wanted = rng.at(longest + 1);
    while text.len() < wanted {
        let highest = rng.pick(&[0x7f, 0x7f, 0x7ff, 0xffff, 0x10_ffff]);
        text.extend(char::from_u32(rng.small(highest + 1)));
    }
    while text.len() > longest {
        text.pop();
    }
    text.into_bytes()
}

/// Any bytes, of which the crate's ids can't be made.
pub fn any_bytes(rng: &mut Rng, longest: usize) -> Vec<u8> {
    let length = rng.at(longest + 1);
    (0..length).map(|_| rng.word().to_le_bytes()[0]).collect()
}
