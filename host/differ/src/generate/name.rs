//! Questions for Name.

use text::{Damage, Name, Question};

use super::{Visit, merge, names};
use crate::rng::Rng;

/// What a full name is about as long as: short, or close to where it is cut and to its limit.
const LENGTHS: [usize; 14] = [3, 20, 60, 88, 91, 92, 99, 100, 100, 101, 101, 102, 130, 400];

/// All of up to two names of groups and of two entries from a few, with three bits; and full names
/// around the limit with a character of each width around the cut.
pub fn exhaustive(visit: Visit<'_>) {
    let groups: [&[&str]; 5] = [&[""], &["a"], &["", "a"], &["a", "a~"], &["é", "😀"]];
    let entries: [&[&str]; 8] =
        [&[], &[""], &["b"], &["é"], &["", "b"], &["b", ""], &["b", "b"], &["c", "~b"]];
    for (group_names, entry_names) in groups.iter().flat_map(|g| entries.map(|e| (*g, e))) {
        for number in 0..group_names.len() {
            for (word, aware) in (0..8).flat_map(|word| [(word, true), (word, false)]) {
                let mut name = question(group_names, entry_names, aware);
                (name.number, name.bits[0]) = (u32::try_from(number).unwrap_or(0), word);
                visit(Question::Name(Box::new(name)));
            }
        }
    }
    around_the_cut(visit);
}

/// Full names of 99 to 103 bytes, with a character of one to four bytes that begins at each place
/// around the cut, and the separator at each place before, among and after it, or nowhere.
fn around_the_cut(visit: Visit<'_>) {
    for length in 99..=103 {
        for (character, begin) in
            ["x", "é", "€", "😀"].into_iter().flat_map(|c| (85..=94).map(move |begin| (c, begin)))
        {
            let rest = "y".repeat(length - begin - character.len());
            let full = "e".repeat(begin) + character + &rest;
            visit(joined((&full, "")));
            let places = [0, 1, 50, 84, 88, 89, 90, 91, 92, 98];
            places
                .into_iter()
                .filter_map(|at| divided(&full, at))
                .for_each(|two| visit(joined(two)));
        }
    }
}

/// A group's and an entry's name that make up a full name with the separator at this place; none if
/// it would stand within a character or at the end.
fn divided(full: &str, place: usize) -> Option<(&str, &str)> {
    let (group, entry) = (full.get(..place)?, full.get(place + 1..)?);
    (!entry.is_empty()).then_some((group, entry))
}

/// An entries-aware chunk of one group and one entry.
fn joined((group, entry): (&str, &str)) -> Question {
    let mut name = question(&[group], &[entry], true);
    name.bits[0] = u64::from(!entry.is_empty());
    Question::Name(Box::new(name))
}

fn question(group_names: &[&str], entry_names: &[&str], entries_aware: bool) -> Name {
    let bytes = |names: &[&str]| names.iter().map(|name| name.as_bytes().to_vec()).collect();
    Name {
        group_names: bytes(group_names),
        entry_names: bytes(entry_names),
        number: 0,
        entries_aware,
        bits: [0; 4],
        hash: b"0a1b2c3d".to_vec(),
        damage: Damage::default(),
    }
}

/// A chunk whose full name has about a wanted length.
pub fn random(rng: &mut Rng) -> Name {
    let entries = if rng.one_in(8) { 0 } else { merge::entries(rng) };
    let bits = bits(rng, entries);
    let wanted = rng.pick(&LENGTHS);
    let shown: Vec<usize> = (0..entries as usize).filter(|entry| holds(bits, *entry)).collect();
    let parts = parts(rng, wanted, shown.len());
    let mut entry_names: Vec<Vec<u8>> = (0..entries).map(|_| names::short(rng)).collect();
    for (entry, length) in shown.iter().zip(&parts[1..]) {
        entry_names[*entry] = names::of_length(rng, *length);
    }
    if !shown.is_empty() && rng.one_in(12) {
        entry_names[shown[rng.at(shown.len())]].clear();
    }
    let group_name = names::of_length(rng, parts[0]);
    let (group_names, number) = names::ascending(rng, group_name, 5);
    let entries_aware = !rng.one_in(8);
    let hash = hash(rng);
    let damage = Damage::default();
    Name { group_names, entry_names, number, entries_aware, bits, hash, damage }
}

/// Whether an entry is among the bits.
fn holds(bits: [u64; 4], entry: usize) -> bool {
    bits[entry / 64] >> (entry % 64) & 1 == 1
}

/// Bits below the count of entries, few or many, and sometimes one at or above it.
fn bits(rng: &mut Rng, entries: u64) -> [u64; 4] {
    let mut bits = [0; 4];
    let mut set = |bit: u64| bits[bit as usize / 64] |= 1 << (bit % 64);
    for _ in 0..rng.pick(&[0, 1, 1, 2, 2, 3, 5, 20]) * entries.min(1) {
        let drawn = rng.below(entries);
        let edge = rng.pick(&[0, 63, 64, 127, 128, 191, 192, 255]);
        set(rng.pick(&[drawn, edge.min(entries - 1), entries - 1]));
    }
    if entries < 256 && rng.one_in(5) {
        let above = rng.between(entries, 255);
        set(rng.pick(&[entries, 255, above]));
    }
    if rng.one_in(40) { [u64::MAX; 4] } else { bits }
}

/// The lengths of the group's name and of so many entries' names, which add up to about the wanted
/// length with the separators; entries have a byte at least.
fn parts(rng: &mut Rng, wanted: usize, entries: usize) -> Vec<usize> {
    let mut parts = vec![0];
    parts.extend(vec![1; entries]);
    let mut left = wanted.saturating_sub(2 * entries);
    // Most of it goes to one or two of them, so that a cut falls into any part.
    for _ in 0..rng.at(3) {
        let length = rng.at(left + 1);
        parts[rng.at(entries + 1)] += length;
        left -= length;
    }
    parts[rng.at(entries + 1)] += left;
    parts
}

/// Eight bytes below 128: digits of a base of 36, or any.
fn hash(rng: &mut Rng) -> Vec<u8> {
    let any = rng.one_in(4);
    let digits = b"0123456789abcdefghijklmnopqrstuvwxyz";
    (0..8).map(|_| if any { rng.word().to_le_bytes()[0] & 127 } else { rng.pick(digits) }).collect()
}
