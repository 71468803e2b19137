//! Whole builds for Chunks.

use text::{Build, Chunks, Damage, Group, Module, Options, Question, Record};

use super::{Visit, build_parts, merge, records};
use crate::rng::Rng;

/// The question of a build without damage.
pub fn question(build: Build) -> Question {
    Question::Chunks(Box::new(Chunks { build, damage: Damage::default() }))
}

/// A random build.
pub fn random(rng: &mut Rng) -> Build {
    let count = rng.pick(&[0, 1, 2, 3, 3, 4, 4, 5, 5, 6, 6, 7, 8, 10, 12, 16]);
    let entries = merge::entries(rng);
    let names = rng.pick(&[0, 1, 1, 2, 2, 2, 3, 3, 4, 65_535]);
    let mut modules = build_parts::modules(rng, count, entries);
    let mut dependencies = Vec::new();
    if count > 0 {
        let most = rng.pick(&[0, count, 2 * count]);
        let chains = records::chains(rng, count, most);
        for (module, first) in modules.iter_mut().zip(chains.first) {
            module.first_record = first;
        }
        dependencies = chains.records;
    }
    let group_count = rng.pick(&[0, 1, 1, 2, 2, 2, 3, 3, 4, 6]);
    let groups: Vec<Group> = (0..group_count).map(|_| build_parts::group(rng, &modules)).collect();
    build_parts::tag_modules(rng, &groups, &mut modules);
    let mut build = Build {
        entries,
        names,
        count_on_entry: count_on_entry(rng),
        options: build_parts::options(rng, &modules, 4),
        records: dependencies,
        answers: groups.iter().map(|_| build_parts::answers(rng, count, names)).collect(),
        modules,
        groups,
    };
    if rng.one_in(6) {
        build_parts::tighten(rng, &mut build);
    }
    build
}

/// Mostly no chunk on entry, now and then as many as there may be.
fn count_on_entry(rng: &mut Rng) -> u64 {
    if rng.one_in(2_000) {
        return 65_535;
    }
    rng.pick(&[0, 0, 0, 0, 1, 7])
}

/// Two overlapping groups over two modules, and one entries-aware group over three, alone and after
/// a group that takes some of them; and one group over three under all near limits.
pub fn exhaustive(visit: Visit<'_>) {
    overlapping(visit);
    entries_aware(visit);
    taken_before(visit);
    marked(visit);
}

/// All answers of two groups for two modules, with and without a dependency.
fn overlapping(visit: Visit<'_>) {
    for code in 0..256_u32 {
        let answers = |group: u32| vec![code >> (4 * group) & 3, code >> (4 * group + 2) & 3];
        for dependency in 0..3_u32 {
            for options in pair_options() {
                let mut build = two_modules(dependency);
                build.options = options.0;
                build.groups = options.1;
                build.answers = vec![answers(0), answers(1)];
                visit(question(build));
            }
        }
    }
}

/// Two modules of sizes 2 and 1 in reverse execution order; 1: 0 depends on 1, 2: 1 on 0.
fn two_modules(dependency: u32) -> Build {
    let module = |number: u32, id: &[u8]| Module {
        flags: 3,
        size: 2 - u64::from(number),
        order: 1 - number,
        first_record: u32::from(dependency == number + 1),
        bits: [1 << number, 0, 0, 0],
        id: id.to_vec(),
        ..Module::default()
    };
    Build {
        entries: 2,
        names: 2,
        modules: vec![module(0, b"a"), module(1, b"b")],
        records: vec![Record { module: dependency % 2, next: 0 }],
        ..Build::default()
    }
}

/// Global options with the options of two groups.
fn pair_options() -> Vec<(Options, Vec<Group>)> {
    let mut all = Vec::new();
    let limits = [(None, None), (Some(2.0), None), (None, Some(2.0)), (Some(1.0), Some(1.0))];
    for (min_size, max_size) in limits {
        for priority in [None, Some(1)] {
            for entries_aware in [None, Some(true)] {
                let first = Group { entries_aware, ..Group::default() };
                let options = Options { min_size, ..Options::default() };
                let second = Group { priority, options, ..Group::default() };
                let global = Options { max_size, ..Options::default() };
                all.push((global, vec![first, second]));
            }
        }
    }
    all
}

/// All entry bits, sizes and orders of three modules under a few thresholds and maxima.
fn entries_aware(visit: Visit<'_>) {
    for bits in 0..27 {
        for sizes in 0..27 {
            for orders in [[0, 1, 2], [0, 2, 1], [1, 0, 2], [1, 2, 0], [2, 0, 1], [2, 1, 0]] {
                for threshold in [None, Some(2.0), Some(3.0), Some(f64::INFINITY)] {
                    for max_size in [None, Some(1.0)] {
                        let mut build = three_modules(bits, sizes, orders);
                        build.groups[0].threshold = threshold;
                        build.groups[0].options.max_size = max_size;
                        visit(question(build));
                    }
                }
            }
        }
    }
}

/// All entry bits and orders of three modules, of which a group of higher priority takes any.
fn taken_before(visit: Visit<'_>) {
    for bits in 0..27 {
        for taken in 0..8_u32 {
            for orders in [[0, 1, 2], [0, 2, 1], [1, 0, 2], [1, 2, 0], [2, 0, 1], [2, 1, 0]] {
                for (threshold, max_size) in [(None, None), (Some(2.0), None), (None, Some(1.0))] {
                    let mut build = three_modules(bits, 22, orders);
                    build.groups[0].threshold = threshold;
                    build.groups[0].options.max_size = max_size;
                    build.groups.push(Group { priority: Some(1), ..Group::default() });
                    build.answers.push((0..3).map(|at| 2 * (taken >> at & 1)).collect());
                    visit(question(build));
                }
            }
        }
    }
}

/// All sizes of three modules under limits that leave every mark, of which a group of higher priority
/// takes any. The limits are the group's or those of the build as a whole.
fn marked(visit: Visit<'_>) {
    for sizes in 0..27 {
        for taken in 0..8_u32 {
            for limits in near_limits() {
                for of_group in [false, true] {
                    let mut build = three_modules(0, sizes, [1, 0, 2]);
                    build.groups =
                        vec![Group::default(), Group { priority: Some(1), ..Group::default() }];
                    build.answers.push((0..3).map(|at| 2 * (taken >> at & 1)).collect());
                    let place =
                        if of_group { &mut build.groups[0].options } else { &mut build.options };
                    place.clone_from(&limits);
                    visit(question(build));
                }
            }
        }
    }
}

/// Each of a few least sizes with each of a few largest ones.
fn near_limits() -> Vec<Options> {
    let mut all = Vec::new();
    for min_size in [None, Some(1.0), Some(2.0), Some(3.0)] {
        for max_size in [None, Some(-1.0), Some(0.0), Some(1.0), Some(2.0), Some(4.0)] {
            all.push(Options { min_size, max_size, ..Options::default() });
        }
    }
    all
}

/// Three modules in one entries-aware group; digits in base three give bits 1 to 3, sizes 0 to 2.
fn three_modules(bits: u64, sizes: u64, orders: [u32; 3]) -> Build {
    let ids: [&[u8]; 3] = [b"a", b"b", b"v"];
    let digit = |code: u64, at: usize| code / [1, 3, 9][at] % 3;
    let module = |at: usize| Module {
        flags: 3,
        size: digit(sizes, at),
        order: orders[at],
        bits: [1 + digit(bits, at), 0, 0, 0],
        id: ids[at].to_vec(),
        ..Module::default()
    };
    Build {
        entries: 2,
        names: 1,
        modules: (0..3).map(module).collect(),
        groups: vec![Group { entries_aware: Some(true), ..Group::default() }],
        answers: vec![vec![2, 2, 2]],
        ..Build::default()
    }
}
