//! Builds whose sets are cut into many pieces.

use text::{Build, Group};

use super::{flat, tree};

/// One set, in pieces of three modules or so.
pub fn one_set(count: u32) -> Build {
    let mut build = flat::plain(count);
    build.options = flat::limits(0.0, 19_000.0);
    build
}

/// Four groups, each for a quarter of the folders, in pieces of two to eight modules or so.
pub fn four_groups(count: u32) -> Build {
    let answers = |group| {
        let answer = |number| if tree::folder(number) % 4 == group { 2 + group } else { 0 };
        (0..count).map(answer).collect()
    };
    let group = |group: u32| Group {
        options: flat::limits(f64::from(group) * 1_000.0, f64::from(1 << group) * 6_000.0),
        ..Group::default()
    };
    Build {
        names: 4,
        groups: (0..4).map(group).collect(),
        answers: (0..4).map(answers).collect(),
        ..flat::plain(count)
    }
}
