//! Questions for Similarity.

use text::{Question, Sim};

use super::{Visit, ids};
use crate::rng::Rng;

/// All pairs of bytes, and all pairs of ids of up to three of a few bytes.
pub fn exhaustive(visit: Visit<'_>) {
    let carriers: Vec<Vec<u8>> = (0..=255).map(carrier).collect();
    let short = short_ids(b"abjkl");
    for ids in [carriers, short] {
        for left in &ids {
            for right in &ids {
                visit(Question::Sim(Sim { left: left.clone(), right: right.clone() }));
            }
        }
    }
}

/// An id with this byte at its third place, a text if UTF-8 knows the byte.
fn carrier(byte: u8) -> Vec<u8> {
    let before: [&[u8]; 2] = [b"xx", b"x\xc2"];
    let after: [&[u8]; 6] =
        [b"x", b"\x80", b"\x80\x80", b"\xa0\x80", b"\x90\x80\x80", b"\x80\x80\x80"];
    let pairs = after.iter().flat_map(|after| before.map(|before| (before, after)));
    let mut ids = pairs.map(|(before, after)| [before, &[byte], after].concat());
    ids.find(|id| std::str::from_utf8(id).is_ok()).unwrap_or(vec![b'x', b'x', byte, b'x'])
}

/// All ids of up to three of these bytes.
fn short_ids(bytes: &[u8]) -> Vec<Vec<u8>> {
    let mut ids = vec![Vec::new()];
    let mut from = 0;
    for _ in 0..3 {
        let to = ids.len();
        for at in from..to {
            for byte in bytes {
                ids.push([ids[at].as_slice(), &[*byte]].concat());
            }
        }
        from = to;
    }
    ids
}

/// Two ids, often with small differences between their bytes.
pub fn random(rng: &mut Rng) -> Sim {
    let longest = rng.pick(&[4, 12, 12, 40, 40, 200]);
    let left = if rng.one_in(3) { ids::any_text(rng, longest) } else { ids::plain(rng, longest) };
    let right = match rng.below(4) {
        0 if rng.one_in(8) => ids::any_bytes(rng, longest),
        0 => ids::any_text(rng, longest),
        1 => left.clone(),
        _ => shifted(rng, &left),
    };
    let (left, right) = (lengthened(rng, left), lengthened(rng, right));
    if rng.one_in(2) { Sim { left, right } } else { Sim { left: right, right: left } }
}

/// The ASCII of an id with some bytes moved by about 10.
fn shifted(rng: &mut Rng, id: &[u8]) -> Vec<u8> {
    let mut moved = Vec::new();
    for byte in id.iter().map(|byte| byte & 0x7f) {
        let gap = rng.pick(&[0, 0, 1, 8, 9, 10, 11, 12]);
        moved.push(if byte < 64 { byte + gap } else { byte - gap });
    }
    moved.truncate(id.len() - rng.at(id.len().min(3) + 1));
    moved
}

/// Now and then an id is made as long as an id may be, or a byte shorter.
fn lengthened(rng: &mut Rng, mut id: Vec<u8>) -> Vec<u8> {
    if rng.one_in(100) {
        let length = 1_024 - rng.at(2);
        while id.len() < length {
            id.push(rng.pick(b"ajkl"));
        }
    }
    id
}
