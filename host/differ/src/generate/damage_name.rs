//! Damaged copies of questions for Name.

use text::{Count, Name, Table};

use super::{
    damage::{above, bad_offsets_of, other_length},
    records::index,
};
use crate::rng::Rng;

/// Bytes that are no UTF-8 wherever a character may begin: bytes that begin none, characters that
/// are cut short, too long, halves of pairs, or above the highest.
const NO_UTF8: [&[u8]; 14] = [
    &[0x80],
    &[0xbf],
    &[0xc0, 0x80],
    &[0xc1, 0xbf],
    &[0xc3],
    &[0xe0, 0x9f, 0xbf],
    &[0xe2, 0x82],
    &[0xed, 0xa0, 0x80],
    &[0xed, 0xbf, 0xbf],
    &[0xf0, 0x8f, 0xbf, 0xbf],
    &[0xf0, 0x9f, 0x98],
    &[0xf4, 0x90, 0x80, 0x80],
    &[0xf5, 0x80, 0x80, 0x80],
    &[0xff],
];

/// Makes a number apply, if it can be done.
pub fn plant(rng: &mut Rng, name: &mut Name, number: u32) -> bool {
    let (names, entries) = (name.group_names.len(), name.entry_names.len());
    let damage = &mut name.damage;
    match number {
        1 if rng.one_in(2) => damage.counts.push((Count::K, above(rng, 65_535))),
        1 => damage.counts.push((Count::E, above(rng, 256))),
        2 => match rng.below(4) {
            0 => damage.counts.push((Count::K, other_length(rng, names) as u64)),
            1 if entries < 256 => {
                damage.counts.push((Count::E, other_length(rng, entries).min(256) as u64));
            }
            2 => damage.lengths.push((Table::NameOffsets, other_length(rng, names + 1))),
            _ => damage.lengths.push((Table::EntryOffsets, other_length(rng, entries + 1))),
        },
        3 if rng.one_in(2) => {
            damage.name_offsets = Some(bad_offsets_of(rng, &lengths(&name.group_names)));
        }
        3 => damage.entry_offsets = Some(bad_offsets_of(rng, &lengths(&name.entry_names))),
        10 => name.number = rng.pick(&[index(names), index(names) + 1, u32::MAX]),
        12 => {
            let needed = name.group_names[name.number as usize].len().max(100);
            let below = rng.at(needed);
            damage.areas = Some(vec![rng.pick(&[needed - 1, needed - 1, 99, 0, below])]);
        }
        14 => no_utf8(rng, name),
        15 => out_of_order(rng, &mut name.group_names),
        _ => bad_hash(rng, &mut name.hash),
    }
    true
}

fn lengths(names: &[Vec<u8>]) -> Vec<usize> {
    names.iter().map(Vec::len).collect()
}

/// Spoils one name, used or not.
fn no_utf8(rng: &mut Rng, name: &mut Name) {
    let (names, entries) = (name.group_names.len(), name.entry_names.len());
    let at = rng.at(names + entries);
    let spoiled =
        if at < names { &mut name.group_names[at] } else { &mut name.entry_names[at - names] };
    let text = str::from_utf8(spoiled).unwrap_or("");
    let before: String = text.chars().take(rng.at(text.chars().count() + 1)).collect();
    let rest = spoiled.split_off(before.len());
    spoiled.extend(rng.pick(&NO_UTF8));
    spoiled.extend(rest);
}

/// Puts a name in twice, or two neighbours in the wrong order.
fn out_of_order(rng: &mut Rng, names: &mut Vec<Vec<u8>>) {
    let at = rng.at(names.len());
    if at + 1 < names.len() && rng.one_in(2) {
        names.swap(at, at + 1);
    } else {
        names.insert(at, names[at].clone());
    }
}

/// Another length, or a byte of 128 or more.
fn bad_hash(rng: &mut Rng, hash: &mut Vec<u8>) {
    match rng.below(3) {
        0 => hash.truncate(rng.at(8)),
        1 => hash.resize(rng.pick(&[9, 9, 10, 16]), b'0'),
        _ => hash[rng.at(8)] |= 128,
    }
}
