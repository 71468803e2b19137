//! Parts of random builds.

use text::{Build, Group, Module, Options};

use super::{
    capture::flags,
    filter, ids, merge,
    numbers::{limit_near, sizes},
    records::index,
};
use crate::rng::Rng;

/// So many modules, without their dependencies. No two that take part share an id or an order.
pub fn modules(rng: &mut Rng, count: usize, entries: u64) -> Vec<Module> {
    let patterns: Vec<[u64; 4]> = (0..4).map(|_| merge::bits(rng, entries, 3)).collect();
    let mut orders: Vec<u32> = (0..index(count)).map(|order| order * 3).collect();
    rng.shuffle(&mut orders);
    let (flags, sizes, ids) = (flags(rng, count), sizes(rng, count), ids::distinct(rng, count));
    let mut modules: Vec<Module> = Vec::new();
    for (number, id) in ids.into_iter().enumerate() {
        modules.push(Module {
            flags: flags[number],
            size: sizes[number],
            order: orders[number],
            share_count: rng.small(4),
            tags: rng.pick(&[0, 1, 2, 3, 3, 1 << 63 | 3]),
            bits: rng.pick(&patterns),
            first_record: 0,
            id,
        });
    }
    repeat_outside(rng, &mut modules);
    modules
}

/// A module that takes no part may have another's id and order, and any size.
pub fn repeat_outside(rng: &mut Rng, modules: &mut [Module]) {
    for number in 0..modules.len() {
        if modules[number].flags & 3 != 3 && rng.one_in(2) {
            let other = modules[rng.at(modules.len())].clone();
            modules[number].order = other.order;
            modules[number].id = other.id;
            modules[number].size = rng.pick(&[other.size, u64::MAX]);
        }
    }
}

/// The sums that limits on a whole set may be close to.
pub fn sums(rng: &mut Rng, modules: &[Module]) -> Vec<u64> {
    let taking_part = modules.iter().filter(|module| module.flags & 3 == 3);
    let sizes: Vec<u64> = taking_part.map(|module| module.size).collect();
    let mut sums = sizes.clone();
    for _ in 0..6 {
        sums.push(sizes.iter().filter(|_| rng.one_in(2)).sum());
    }
    sums.push(sizes.iter().sum());
    sums
}

/// Options, each given once in so many times.
pub fn options(rng: &mut Rng, modules: &[Module], times: u64) -> Options {
    let single: Vec<u64> = modules.iter().map(|module| module.size).collect();
    let sums = sums(rng, modules);
    Options {
        min_size: rng.maybe(times + 1, |rng| limit_near(rng, &sums)),
        max_size: rng.maybe(times, |rng| limit_near(rng, &sums)),
        min_module_size: rng.maybe(3 * times, |rng| limit_near(rng, &single)),
        max_module_size: rng.maybe(3 * times, |rng| limit_near(rng, &single)),
        min_share_count: rng.maybe(3 * times, |rng| rng.small(4)),
        recursive: rng.maybe(times, |rng| rng.one_in(2)),
    }
}

/// A group.
pub fn group(rng: &mut Rng, modules: &[Module]) -> Group {
    let sums = sums(rng, modules);
    Group {
        options: options(rng, modules, 2),
        mask: if rng.one_in(5) { rng.pick(&[1, 2, 3, 1 << 63]) } else { 0 },
        priority: rng.maybe(2, |rng| rng.pick(&[0, 0, 1, 1, 2, u32::MAX])),
        entries_aware: rng.maybe(2, |rng| !rng.one_in(5)),
        threshold: rng.maybe(2, |rng| limit_near(rng, &sums)),
    }
}

/// Limits of one group, or of all, that allow few cuts: a least size near half of a sum or above it, and
/// a largest one below the sum.
pub fn tighten(rng: &mut Rng, build: &mut Build) {
    let sums = sums(rng, &build.modules);
    let sum = rng.pick(&sums);
    let at = rng.at(4 * build.groups.len() / 3 + 1);
    let options = match build.groups.get_mut(at) {
        Some(group) => &mut group.options,
        None => &mut build.options,
    };
    let half = sum / 2;
    options.min_size = Some(limit_near(rng, &[half, half + 1, sum - sum / 3]));
    options.max_size = Some(limit_near(rng, &[half, sum - sum / 4, sum.saturating_sub(1)]));
}

/// The answers of one group: in one group few match, in another most do.
pub fn answers(rng: &mut Rng, modules: usize, names: u64) -> Vec<u32> {
    let unmatched = rng.pick(&[1, 2, 3, 100]);
    let few = rng.pick(&[1, 2, names]).min(names);
    let mut answer = |_| match rng.below(12) {
        0 => 1,
        _ if rng.one_in(unmatched + 1) => 0,
        _ if few == 0 => 1,
        _ => 2 + index((names - 1 - rng.below(few)) as usize),
    };
    (0..modules).map(&mut answer).collect()
}

/// A mask and tags that fit it in the way of Filter's questions.
pub fn tag_modules(rng: &mut Rng, groups: &[Group], modules: &mut [Module]) {
    for module in modules {
        if let Some(group) = groups.iter().find(|group| group.mask != 0)
            && rng.one_in(2)
        {
            module.tags = filter::tags(rng, group.mask);
        }
    }
}
