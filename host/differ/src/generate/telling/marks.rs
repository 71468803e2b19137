//! Builds in which the mark of a chunk tells: by its own modules, the limits in force and what cuts of
//! them in id order are allowed.

use text::{Build, Chunks, Group, Module, Options};

use super::{build, module, sound};

/// An id with its size and execution order.
type Part<'a> = (&'a str, u64, u32);

/// A least and a largest size of a chunk.
type Limits = (Option<f64>, Option<f64>);

/// All of them.
pub fn marked() -> Vec<Chunks> {
    let mut all = at_limits();
    all.extend(pieces());
    all.extend(levels());
    all.extend(orders());
    all.extend(left_before());
    all.extend(entries_aware());
    all.into_iter().map(sound).collect()
}

/// These modules in one group with these limits.
fn limited(parts: &[Part<'_>], limits: Limits) -> Build {
    let part = |(id, size, order): &Part<'_>| module(id.as_bytes(), *size, *order);
    let group = Group { options: options(limits), ..Group::default() };
    build(parts.iter().map(part).collect(), vec![group])
}

fn options((min_size, max_size): Limits) -> Options {
    Options { min_size, max_size, ..Options::default() }
}

/// No maximum, at it, right above it and far above it: one module, and two of which no cut is allowed.
fn at_limits() -> Vec<Build> {
    let one = [("a", 5, 0)];
    let two = [("a", 5, 0), ("b", 5, 1)];
    let largest = [("a", 1 << 53, 0)];
    let mut all = Vec::new();
    for max_size in [None, Some(5.0), Some(5.0_f64.next_down()), Some(4.0), Some(-1.0)] {
        all.push(limited(&one, (None, max_size)));
        all.push(limited(&one, (Some(5.0), max_size)));
        all.push(limited(&two, (Some(6.0), max_size.map(|limit| limit + 5.0))));
    }
    for max_size in [f64::INFINITY, f64::NEG_INFINITY, (1_u64 << 53) as f64] {
        all.push(limited(&largest, (None, Some(max_size))));
        all.push(limited(&two, (Some(10.0), Some(max_size))));
    }
    // A size of 0 is above a maximum below it.
    for max_size in [-0.0, -1.0] {
        all.push(limited(&[("a", 0, 0)], (None, Some(max_size))));
        all.push(limited(&[("a", 0, 0), ("b", 0, 1)], (None, Some(max_size))));
    }
    all
}

/// Pieces of a cut within the maximum, above it with one module, and above it with no cut allowed.
fn pieces() -> Vec<Build> {
    vec![
        limited(&[("a", 9, 0), ("b", 1, 1)], (None, Some(5.0))),
        limited(&[("a", 1, 1), ("b", 9, 0)], (None, Some(5.0))),
        limited(&[("a", 9, 0), ("b", 8, 1)], (None, Some(5.0))),
        limited(&[("a", 4, 0), ("b", 4, 1), ("z", 9, 2)], (Some(8.0), Some(7.0))),
        limited(&[("a", 4, 0), ("b", 4, 1), ("y", 4, 2), ("z", 4, 3)], (Some(5.0), Some(7.0))),
        limited(&[("a", 4, 0), ("b", 4, 1), ("y", 4, 2), ("z", 4, 3)], (Some(5.0), Some(8.0))),
    ]
}

/// The limits of the build as a whole, of the group, and of both, which then tell otherwise.
fn levels() -> Vec<Build> {
    let of_one: [(Limits, Limits); 4] = [
        ((None, Some(4.0)), (None, None)),
        ((None, None), (None, Some(4.0))),
        ((None, Some(4.0)), (None, Some(9.0))),
        ((None, Some(9.0)), (None, Some(4.0))),
    ];
    let of_two: [(Limits, Limits); 7] = [
        ((Some(6.0), Some(9.0)), (None, None)),
        ((Some(6.0), Some(9.0)), (Some(1.0), Some(10.0))),
        ((Some(1.0), Some(10.0)), (Some(6.0), Some(9.0))),
        ((Some(6.0), None), (None, Some(9.0))),
        ((None, Some(9.0)), (Some(6.0), None)),
        ((Some(1.0), Some(9.0)), (Some(6.0), None)),
        ((Some(6.0), Some(9.0)), (Some(1.0), None)),
    ];
    let with = |parts: &[Part<'_>], (global, own): (Limits, Limits)| Build {
        options: options(global),
        ..limited(parts, own)
    };
    let one = of_one.map(|limits| with(&[("a", 5, 0)], limits));
    let two = of_two.map(|limits| with(&[("a", 5, 0), ("b", 5, 1)], limits));
    one.into_iter().chain(two).collect()
}

/// Of sizes 3, 6 and 3 no cut is allowed if the 6 stands between them: by ids, and not in execution
/// order or by number; and the other way round.
fn orders() -> Vec<Build> {
    let limits = (Some(5.0), Some(6.0));
    vec![
        limited(&[("b", 6, 0), ("a", 3, 1), ("c", 3, 2)], limits),
        limited(&[("a", 3, 1), ("b", 6, 0), ("c", 3, 2)], limits),
        limited(&[("b", 6, 1), ("a", 3, 0), ("c", 3, 2)], limits),
        limited(&[("a", 3, 0), ("c", 6, 1), ("b", 3, 2)], limits),
    ]
}

/// A group of higher priority takes one module before, so that the mark isn't that of the whole item.
fn left_before() -> Vec<Build> {
    let without = |parts: &[Part<'_>], taken: usize, limits: Limits| {
        let mut build = limited(parts, limits);
        build.groups.push(Group { priority: Some(1), ..Group::default() });
        build.answers.push((0..parts.len()).map(|at| if at == taken { 2 } else { 0 }).collect());
        build
    };
    let (two, three) = ([("a", 7, 0), ("b", 5, 1)], [("a", 4, 0), ("b", 9, 1), ("c", 4, 2)]);
    vec![
        // Above it before and within it now; the other way round can't be.
        without(&two, 0, (None, Some(6.0))),
        without(&two, 1, (Some(7.0), Some(8.0))),
        without(&three, 1, (Some(8.0), Some(8.0))),
        // No cut was allowed, and one module is left.
        without(&two, 1, (Some(7.0), Some(6.0))),
        // A cut was allowed, and of what is left none is, or one module is left.
        without(&three, 1, (Some(5.0), Some(7.0))),
        without(&three, 0, (Some(8.0), Some(8.0))),
        without(&two, 1, (None, Some(6.0))),
    ]
}

/// Subgroups of one set: each has a mark of its own, after joins and after modules left.
fn entries_aware() -> Vec<Build> {
    let aware = |bits: &[u64], threshold: Option<f64>, limits: Limits| {
        let parts = [("a", 5, 0), ("b", 5, 1), ("c", 9, 2), ("d", 1, 3)];
        let mut build = limited(&parts, limits);
        let part = |(module, bits): (Module, &u64)| Module { bits: [*bits, 0, 0, 0], ..module };
        build.modules = build.modules.into_iter().zip(bits).map(part).collect();
        build.groups[0].entries_aware = Some(true);
        build.groups[0].threshold = threshold;
        Build { entries: 2, ..build }
    };
    let mut all = vec![
        aware(&[1, 1, 2, 3], None, (None, Some(6.0))),
        aware(&[1, 1, 2, 2], None, (Some(6.0), Some(6.0))),
        aware(&[1, 1, 2, 3], Some(2.0), (Some(6.0), Some(9.0))),
    ];
    let mut left = aware(&[1, 1, 2, 2], None, (Some(5.0), Some(6.0)));
    left.groups.push(Group { priority: Some(1), ..Group::default() });
    left.answers.push(vec![0, 2, 0, 2]);
    all.push(left);
    all
}
