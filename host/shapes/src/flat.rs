//! Builds without dependencies.

use text::{
    Build, Group, Module, Options,
    drawn::{drawn, shuffled},
};

use super::tree::{self, Area};

/// Three groups: packages under 16 names, the user interface, and whatever two entries share. The
/// larger sets are cut.
pub fn flat(count: u32) -> Build {
    let answers: [fn(u32) -> u32; 3] = [
        |number| if let Area::Vendor(package) = tree::area(number) { 2 + package % 16 } else { 0 },
        |number| if tree::area(number) == Area::Ui { 18 } else { 0 },
        |_| 19,
    ];
    let shared = Options { min_share_count: Some(2), ..Options::default() };
    Build {
        entries: 3,
        names: 18,
        options: limits(10_000.0, 300_000.0),
        modules: tree::modules(count),
        groups: vec![
            Group { priority: Some(10), ..Group::default() },
            Group { priority: Some(5), ..Group::default() },
            Group { options: shared, ..Group::default() },
        ],
        answers: answers.map(|answer| (0..count).map(answer).collect()).into(),
        ..Build::default()
    }
}

/// The same modules under other numbers.
pub fn random(count: u32) -> Build {
    let mut build = flat(count);
    let numbers = shuffled(5, count);
    build.modules = permuted(&build.modules, &numbers);
    for answers in &mut build.answers {
        *answers = permuted(answers, &numbers);
    }
    build
}

fn permuted<T: Clone>(items: &[T], numbers: &[u32]) -> Vec<T> {
    numbers.iter().map(|number| items[*number as usize].clone()).collect()
}

/// Nothing is cut.
pub fn unlimited(count: u32) -> Build {
    let mut build = flat(count);
    build.options.max_size = None;
    build
}

/// Ids that differ in their last twelve bytes alone.
pub fn long_ids(count: u32) -> Build {
    let mut build = flat(count);
    let files = shuffled(6, count);
    for (number, module) in (0..).zip(&mut build.modules) {
        let (folder, file) = (tree::folder(number), files[number as usize]);
        module.id =
            format!("{:-<82}/{folder:03}/m{file:04}.js", "workspace/packages/").into_bytes();
    }
    build
}

/// One group that matches everything under one name.
pub fn plain(count: u32) -> Build {
    one_group(tree::modules(count), Group::default())
}

/// These modules, and a group that matches all of them under one name.
pub fn one_group(modules: Vec<Module>, group: Group) -> Build {
    Build {
        entries: 3,
        names: 1,
        answers: vec![vec![2; modules.len()]],
        modules,
        groups: vec![group],
        ..Build::default()
    }
}

/// Sixteen groups, each for half of the folders, at four priorities.
pub fn sixteen_groups(count: u32) -> Build {
    let group = |group: u32| Group { priority: Some(drawn(7, group) % 4), ..Group::default() };
    let matches = |group: u32, number| drawn(8 + group, tree::folder(number)) % 2 == 0;
    let answers = |group: u32| {
        let answer = |number| if matches(group, number) { 2 + group } else { 0 };
        (0..count).map(answer).collect()
    };
    Build {
        entries: 3,
        names: 16,
        options: limits(10_000.0, 300_000.0),
        modules: tree::modules(count),
        groups: (0..16).map(group).collect(),
        answers: (0..16).map(answers).collect(),
        ..Build::default()
    }
}

/// A minimum and a maximum for what becomes a chunk.
pub fn limits(min_size: f64, max_size: f64) -> Options {
    Options { min_size: Some(min_size), max_size: Some(max_size), ..Options::default() }
}
