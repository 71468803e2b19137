//! Entries-aware builds without dependencies.

use text::{
    Build, Group,
    drawn::{drawn, word},
};

use super::{flat, tree};

/// Each module has entry bits of its own, and nothing joins.
pub fn all_different(count: u32) -> Build {
    let group = Group { entries_aware: Some(true), ..Group::default() };
    let mut build = flat::one_group(tree::modules(count), group);
    build.entries = 16;
    for (number, module) in (0..).zip(&mut build.modules) {
        module.bits = narrow_bits(number);
    }
    build
}

/// As many kinds of bits as modules, less a few, and all of them join in the end.
pub fn merge_16(count: u32) -> Build {
    let mut build = merge(count, narrow_bits);
    build.entries = 16;
    build
}

/// The same with bits of 256 entries.
pub fn merge_256(count: u32) -> Build {
    let mut build = merge(count, wide_bits);
    build.entries = 256;
    build
}

/// The threshold is above the size of all modules together.
fn merge(count: u32, bits: fn(u32) -> [u64; 4]) -> Build {
    let group = Group { entries_aware: Some(true), threshold: Some(1e9), ..Group::default() };
    let mut build = flat::one_group(tree::modules(count), group);
    let kinds = kinds(count);
    for (number, module) in (0..).zip(&mut build.modules) {
        module.bits = bits(if number < kinds { number } else { drawn(50, number) % kinds });
    }
    build
}

/// How many kinds of entry bits there are.
fn kinds(count: u32) -> u32 {
    match count {
        900 => 860,
        4_096 => 3_800,
        _ => count * 14 / 15,
    }
}

/// Bits of 256 entries, of which about half are set.
pub fn wide_bits(kind: u32) -> [u64; 4] {
    [0, 1, 2, 3].map(|place| word(51, 4 * kind + place))
}

/// Bits of 16 entries: an odd factor sends each kind to another number.
fn narrow_bits(kind: u32) -> [u64; 4] {
    [u64::from((kind + 1).wrapping_mul(40_503) % 65_536), 0, 0, 0]
}
