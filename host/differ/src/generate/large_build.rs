//! Random builds of 4,096 modules and 65,535 records, which are accepted.
//!
//! The crate walks dependencies anew for each matched module, and for each module of a chunk looks
//! at all items that are left. So that a build takes seconds, what its groups ask is limited.

use text::{Build, Group, Options};

use super::{large_modules::modules, large_records::chains, largest::MODULES, records::index};
use crate::rng::Rng;

/// What the groups of a build may still ask.
struct Budget {
    /// Dependencies that captures look at.
    visits: usize,
    /// Dependencies that one capture looks at.
    of_capture: usize,
    /// Items of the work list.
    items: usize,
    /// Subgroups that a set may have.
    kinds: usize,
    /// Pairs of a group and a name.
    pairs: usize,
}

/// What a group is like.
struct Shape {
    /// How many names its answers have.
    names: usize,
    /// How many modules take part, more or less.
    matched: usize,
    recursive: bool,
    entries_aware: bool,
}

/// A random build, with P at most as large as this.
pub fn random(rng: &mut Rng, most_pairs: usize) -> Build {
    let (entries, kinds) = (rng.pick(&[1, 64, 65, 256, 256]), rng.pick(&[1, 4, 40, 300]));
    let cluster = rng.pick(&[8, 32, 128, MODULES]);
    let chains = chains(rng, cluster);
    let mut modules = modules(rng, entries, kinds);
    for (module, first) in modules.iter_mut().zip(&chains.first) {
        module.first_record = *first;
    }
    let clusters = MODULES / cluster;
    let of_capture = chains.lengths().map(|length| length.min(cluster)).sum::<usize>() / clusters;
    let mut budget =
        Budget { visits: 4_000_000, of_capture, items: 6_000, kinds, pairs: most_pairs };
    let mut build = Build {
        entries,
        names: 65_535,
        count_on_entry: rng.pick(&[0, 0, 7, 65_535]),
        options: Options { recursive: rng.maybe(2, |rng| rng.one_in(2)), ..Options::default() },
        modules,
        records: chains.records,
        ..Build::default()
    };
    build.options.max_size = rng.maybe(4, |rng| share(rng, &build, &[3.0, 50.0]));
    let all_own = rng.one_in(16);
    for _ in 0..if all_own { 64 } else { rng.pick(&[1, 2, 5, 12, 30, 64, 64]) } {
        let shape = shape(rng, &mut budget, all_own);
        add_group(rng, &mut build, &shape);
    }
    build
}

/// The shape of the next group, within what is left; each module may have a name of its own.
fn shape(rng: &mut Rng, budget: &mut Budget, own: bool) -> Shape {
    let wanted = if own || rng.one_in(2) { MODULES } else { rng.pick(&[1, 3, 20, 500]) };
    let names = if wanted > budget.pairs { 1 } else { wanted };
    let items = |matched: usize, entries_aware: bool| {
        names.min(matched) * if entries_aware { budget.kinds } else { 1 }
    };
    let mut matched = rng.pick(&[1, 4, 16, 64, 256, MODULES]);
    let mut entries_aware = rng.one_in(3);
    if items(matched, entries_aware) > budget.items {
        entries_aware = false;
        matched = if items(matched, false) > budget.items { 1 } else { matched };
    }
    let visits = matched * budget.of_capture;
    let recursive = rng.one_in(2) && visits <= budget.visits;
    budget.items = budget.items.saturating_sub(items(matched, entries_aware));
    budget.visits -= if recursive { visits } else { 0 };
    budget.pairs -= names.min(budget.pairs);
    Shape { names, matched, recursive, entries_aware }
}

/// Adds a group of this shape, with its answers.
fn add_group(rng: &mut Rng, build: &mut Build, shape: &Shape) {
    let absent = build.options.recursive.unwrap_or(true) == shape.recursive && rng.one_in(2);
    let mut group = Group {
        options: Options {
            min_size: rng.maybe(4, |rng| share(rng, build, &[100.0, 3_000.0, 50_000.0])),
            max_size: rng.maybe(2, |rng| share(rng, build, &[3.0, 50.0, 400.0, 2_000.0])),
            max_module_size: rng.maybe(8, |rng| build.modules[rng.at(MODULES)].size as f64),
            recursive: if absent { None } else { Some(shape.recursive) },
            ..Options::default()
        },
        priority: rng.maybe(2, |rng| rng.pick(&[0, 1, 1, 2, u32::MAX])),
        entries_aware: if shape.entries_aware {
            Some(true)
        } else {
            rng.pick(&[None, Some(false)])
        },
        threshold: rng.maybe(2, |rng| share(rng, build, &[20.0, 300.0, 3_000.0])),
        ..Group::default()
    };
    let one_in = (MODULES / shape.matched) as u64;
    let by_filter = shape.names == MODULES || rng.one_in(3);
    if by_filter && rng.one_in(2) {
        group.mask = 1 << one_in.ilog2().div_ceil(2);
    } else if by_filter {
        group.options.min_share_count = Some(one_in.ilog2());
    }
    build.answers.push(answers(rng, shape.names, if by_filter { 1 } else { one_in }));
    build.groups.push(group);
}

/// One part in so many of what those that take part add to.
fn share(rng: &mut Rng, build: &Build, parts: &[f64]) -> f64 {
    let taking_part = build.modules.iter().filter(|module| module.flags & 3 == 3);
    let total: u64 = taking_part.map(|module| module.size).sum();
    (total as f64 / rng.pick(parts)).floor()
}

/// Answers with so many names, where one in so many modules has one; or each module has its own.
fn answers(rng: &mut Rng, names: usize, one_in: u64) -> Vec<u32> {
    let start = rng.small(65_535);
    let own = |module: usize| (index(module) * 15 + start) % 65_535;
    let mut answer = |module: usize| match rng.below(12) {
        _ if names == MODULES => 2 + own(module),
        0 => 1,
        _ if !rng.one_in(one_in) => 0,
        _ => 2 + (start + rng.small(index(names))) % 65_535,
    };
    (0..MODULES).map(&mut answer).collect()
}
