//! Builds in which the order of the subgroups of one (group, name) tells: it goes by the smallest id
//! that each held when they were finished, after merging.

use text::{Build, Chunks, Group, Module, Options};

use super::{build, module, sound};

/// An id with its size, execution order and entry bits.
type Part<'a> = (&'a str, u64, u32, u64);

/// All of them.
pub fn order() -> Vec<Chunks> {
    let mut all = plain();
    all.extend(joined());
    all.extend(left_before());
    all.extend(cut());
    all.extend(names_and_groups());
    all.extend(tied_targets());
    all.into_iter().map(sound).collect()
}

/// These modules in one entries-aware group of four entries.
fn aware(parts: &[Part<'_>], threshold: Option<f64>, max_size: Option<f64>) -> Build {
    let part = |(id, size, order, bits): &Part<'_>| Module {
        bits: [*bits, 0, 0, 0],
        ..module(id.as_bytes(), *size, *order)
    };
    let options = Options { max_size, ..Options::default() };
    let group = Group { options, entries_aware: Some(true), threshold, ..Group::default() };
    Build { entries: 4, ..build(parts.iter().map(part).collect(), vec![group]) }
}

/// The same with a group of higher priority that takes one module.
fn without(mut build: Build, taken: usize) -> Build {
    let mut answers = vec![0; build.modules.len()];
    answers[taken] = 2;
    let recursive = Options { recursive: Some(false), ..Options::default() };
    build.groups.push(Group { options: recursive, priority: Some(1), ..Group::default() });
    build.answers.push(answers);
    build
}

/// No join and no cut: ids against execution orders, load numbers, lengths and largest ids.
fn plain() -> Vec<Build> {
    let subgroups: [&[Part<'_>]; 9] = [
        &[("b", 1, 0, 1), ("a", 1, 1, 2)],
        &[("a", 1, 1, 1), ("b", 1, 0, 2)],
        &[("b", 1, 1, 1), ("a", 1, 0, 2)],
        &[("b", 1, 0, 1), ("c", 1, 2, 2), ("a", 1, 1, 4)],
        // The smallest id isn't the first, neither by number nor in execution order.
        &[("m", 1, 0, 1), ("z", 1, 1, 2), ("a", 1, 2, 2)],
        &[("a", 1, 2, 1), ("z", 1, 0, 1), ("m", 1, 1, 2)],
        // A beginning is smaller than what goes on; bytes decide, and no lengths.
        &[("ab", 1, 0, 1), ("a", 1, 1, 2)],
        &[("b", 1, 0, 1), ("aa", 1, 1, 2)],
        &[("\u{e9}", 1, 0, 1), ("z", 1, 1, 2)],
    ];
    subgroups.iter().map(|parts| aware(parts, None, None)).collect()
}

/// One of size 1 joins another, with the smallest id or with the first in execution order.
fn joined() -> Vec<Build> {
    let subgroups: [&[Part<'_>]; 5] = [
        &[("a", 1, 0, 1), ("b", 5, 1, 6), ("c", 5, 2, 1 | 8)],
        &[("b", 5, 0, 6), ("c", 5, 1, 1 | 8), ("a", 1, 2, 1)],
        &[("c", 1, 0, 1), ("a", 5, 1, 6), ("b", 5, 2, 1 | 8)],
        &[("a", 1, 0, 1), ("b", 5, 1, 6), ("c", 5, 2, 1 | 8), ("d", 5, 3, 8)],
        // One joins, and what comes of it joins too.
        &[("a", 1, 3, 1), ("d", 1, 1, 3), ("c", 5, 2, 7), ("b", 5, 0, 8)],
    ];
    subgroups.iter().map(|parts| aware(parts, Some(3.0), None)).collect()
}

/// The module of the smallest id is in an earlier chunk when the item's turn comes.
fn left_before() -> Vec<Build> {
    let plain: [&[Part<'_>]; 3] = [
        &[("a", 1, 0, 1), ("m", 1, 1, 2), ("z", 1, 2, 1)],
        &[("a", 1, 2, 1), ("m", 1, 0, 2), ("z", 1, 1, 1)],
        &[("a", 1, 0, 1), ("m", 1, 1, 2), ("c", 1, 2, 4)],
    ];
    let mut all: Vec<Build> =
        plain.iter().map(|parts| without(aware(parts, None, None), 0)).collect();
    // It came with a join, too.
    let joined: [&[Part<'_>]; 2] = [
        &[("a", 1, 0, 1), ("m", 5, 1, 6), ("z", 5, 2, 1 | 8)],
        &[("a", 1, 2, 1), ("m", 5, 0, 6), ("z", 5, 1, 1 | 8)],
    ];
    all.extend(joined.iter().map(|parts| without(aware(parts, Some(3.0), None), 0)));
    all
}

/// An item is cut: its pieces stay together where it stood, the right one first.
fn cut() -> Vec<Build> {
    let (a, m, z) = (("a", 5, 1, 1), ("m", 5, 0, 2), ("z", 5, 2, 1));
    let mut all = vec![
        aware(&[a, m, z], None, Some(5.0)),
        aware(&[a, m, z, ("k", 5, 3, 2)], None, Some(5.0)),
        aware(&[("b", 5, 0, 2), a, ("c", 5, 2, 1)], None, Some(5.0)),
    ];
    // After a join, and after the smallest id left.
    let parts = [("a", 1, 3, 1), m, ("y", 5, 1, 1 | 8), ("z", 5, 2, 1 | 8)];
    all.push(aware(&parts, Some(3.0), Some(6.0)));
    all.push(without(aware(&parts, Some(3.0), Some(5.0)), 0));
    all.push(without(aware(&[a, m, ("y", 5, 3, 1), z], None, Some(5.0)), 0));
    all
}

/// Priority, group and name come before ids.
fn names_and_groups() -> Vec<Build> {
    let parts = [("d", 1, 0, 1), ("c", 1, 1, 2), ("b", 1, 2, 1), ("a", 1, 3, 2)];
    let mut names = aware(&parts, None, None);
    names.names = 2;
    names.answers = vec![vec![2, 2, 3, 3]];
    let mut groups = aware(&parts, None, None);
    groups.groups.push(groups.groups[0].clone());
    groups.answers = vec![vec![2, 2, 0, 0], vec![0, 0, 2, 2]];
    let mut priorities = groups.clone();
    priorities.groups[1].priority = Some(1);
    vec![names, groups, priorities]
}

/// Two targets tie in distance and size: the lower number, by execution order, is joined, whatever
/// the ids.
fn tied_targets() -> Vec<Build> {
    let subgroups: [&[Part<'_>]; 2] = [
        &[("m", 1, 2, 1), ("z", 5, 0, 1 | 2), ("a", 5, 1, 1 | 4)],
        &[("m", 1, 2, 1), ("z", 5, 1, 1 | 2), ("a", 5, 0, 1 | 4)],
    ];
    subgroups.iter().map(|parts| aware(parts, Some(3.0), None)).collect()
}
