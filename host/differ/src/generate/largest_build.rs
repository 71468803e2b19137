//! The largest builds that are accepted.

use text::{Build, Group, Module, Options, Question, Record};

use super::{
    builds::question,
    largest::{MODULES, RECORDS, full_sizes},
    merge,
    records::index,
};
use crate::rng::Rng;

/// Builds with every count at its limit.
pub fn largest(rng: &mut Rng) -> Vec<Question> {
    vec![question(many_groups(rng)), question(many_names(rng)), question(many_pieces(rng))]
}

/// 4,096 modules of 256 entries that add to 2^53, in a random order, with 65,535 records.
fn tree(rng: &mut Rng) -> Build {
    let sizes = full_sizes(rng, MODULES);
    let mut orders: Vec<u32> = (0..index(MODULES)).collect();
    rng.shuffle(&mut orders);
    let module = |number: usize| Module {
        flags: if number % 97 == 5 { 7 } else { 3 },
        size: sizes[number],
        order: orders[number],
        share_count: index(number % 7),
        tags: number as u64,
        bits: merge::bits(rng, 256, 2),
        first_record: index(number + 1),
        id: format!("src/{:02}/{}/m{number}", number % 50, number % 9).into_bytes(),
    };
    Build {
        entries: 256,
        names: 65_535,
        count_on_entry: 65_535,
        options: Options { recursive: Some(false), ..Options::default() },
        modules: (0..MODULES).map(module).collect(),
        records: forest(rng),
        ..Build::default()
    }
}

/// Records 1 to 4,096 begin a chain each; the others lengthen the chains.
fn forest(rng: &mut Rng) -> Vec<Record> {
    let next = |at: usize| if at + MODULES < RECORDS { index(at + MODULES + 1) } else { 0 };
    (0..RECORDS).map(|at| Record { module: rng.small(4_096), next: next(at) }).collect()
}

/// 64 groups, of which one walks dependencies.
fn many_groups(rng: &mut Rng) -> Build {
    let mut build = tree(rng);
    for number in 0..64 {
        let limit = (1_u64 << 53) as f64 / 300.0;
        let options = Options {
            recursive: (number == 7).then_some(true),
            max_size: (number % 2 == 0).then_some(limit),
            min_size: (number % 5 == 0).then_some(limit / 60.0),
            ..Options::default()
        };
        build.groups.push(Group {
            options,
            priority: Some(number % 4),
            entries_aware: Some(number % 3 == 0),
            threshold: (number % 6 == 0).then_some(limit / 9.0),
            ..Group::default()
        });
        let matched = if number == 7 { 1_000 } else { 25 };
        let mut answer = |_| if rng.one_in(matched) { 65_532 + rng.small(5) } else { 0 };
        build.answers.push((0..MODULES).map(&mut answer).collect());
    }
    build
}

/// A name for each module.
fn many_names(rng: &mut Rng) -> Build {
    let mut build = tree(rng);
    build.groups = vec![Group::default()];
    build.answers = vec![(0..index(MODULES)).map(|module| 2 + (module * 15) % 65_535).collect()];
    build
}

/// All modules in one set, which is cut into many pieces.
fn many_pieces(rng: &mut Rng) -> Build {
    let mut build = tree(rng);
    let limit = (1_u64 << 53) as f64 / 200.0;
    let (min_size, max_size) = (Some(limit / 50.0), Some(limit));
    let options = Options { min_size, max_size, ..Options::default() };
    build.groups = vec![Group { options, ..Group::default() }];
    build.answers = vec![vec![2; MODULES]];
    build
}
