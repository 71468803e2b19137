//! Builds with dependencies, in layers.

use text::{
    Build, Group, Record,
    drawn::{drawn, shuffled},
};

use super::{flat, tree};

/// How many layers there are; a module's number less a multiple of this is its layer.
const LAYERS: u32 = 24;

/// Layers of modules, and a group that matches all of them under one name.
pub fn deep(count: u32) -> Build {
    Build { options: flat::limits(10_000.0, 300_000.0), ..layered(count) }
}

/// The same divided by entry bits of 120 kinds, of which the small ones join others.
pub fn aware(count: u32) -> Build {
    let mut build = deep(count);
    for (number, module) in (0..).zip(&mut build.modules) {
        let kind = drawn(31, number) % 120;
        module.bits = [u64::from(1 + drawn(32, kind) % 65_535), 0, 0, 0];
    }
    build.entries = 16;
    build.groups[0].entries_aware = Some(true);
    build.groups[0].threshold = Some(20_000.0);
    build
}

/// The modules of a tree. Every second one or so depends on three of the next layer and one of any
/// layer below, so that each of these reaches most of what lies below. Lower layers are
/// first in execution order.
pub fn layered(count: u32) -> Build {
    let mut modules = tree::modules(count);
    let mut numbers = shuffled(33, count);
    numbers.sort_by_key(|number| LAYERS - number % LAYERS);
    for (order, number) in (0..).zip(numbers) {
        modules[number as usize].order = order;
    }
    let mut records = Vec::new();
    for number in 0..count {
        let below = dependencies(number, count);
        let first = records.len() as u32 + 1;
        modules[number as usize].first_record = if below.is_empty() { 0 } else { first };
        chain(&mut records, &below);
    }
    Build { records, ..flat::one_group(modules, Group::default()) }
}

/// The modules that one depends on.
fn dependencies(number: u32, count: u32) -> Vec<u32> {
    let layer = number % LAYERS;
    let below = (layer + 1..LAYERS.min(count)).len() as u32;
    if below == 0 || drawn(30, number).is_multiple_of(2) {
        return Vec::new();
    }
    let layers = [1, 1, 1, 1 + drawn(34, number) % below].map(|down| layer + down);
    (0..).zip(layers).map(|(place, layer)| of_layer(layer, count, 4 * number + place)).collect()
}

/// One of the modules of a layer.
fn of_layer(layer: u32, count: u32, place: u32) -> u32 {
    let width = (count - layer).div_ceil(LAYERS);
    layer + LAYERS * (drawn(35, place) % width)
}

/// Adds the records of one module.
pub fn chain(records: &mut Vec<Record>, modules: &[u32]) {
    for (place, module) in modules.iter().enumerate() {
        let number = records.len() as u32 + 1;
        let next = if place + 1 < modules.len() { number + 1 } else { 0 };
        records.push(Record { module: *module, next });
    }
}
