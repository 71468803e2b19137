//! Damage to whole builds.

use text::{Build, Chunks, Count, Damage, Options, Table, tables};

use super::{
    damage::{above, bad_bit, bad_offsets, bad_records, nan, other_length, overflow},
    records::index,
};
use crate::rng::Rng;

/// Makes a number apply to a build, if it can be done.
pub fn plant(rng: &mut Rng, chunks: &mut Chunks, number: u32) -> bool {
    let Chunks { build, damage } = chunks;
    match number {
        1 => damage.counts.push(count_above(rng)),
        2 => bad_length(rng, chunks),
        3 => {
            let ids = build.modules.iter_mut().map(|module| &mut module.id).collect();
            damage.offsets = bad_offsets(rng, ids);
        }
        4 | 5 => return share(rng, build, number),
        6 => {
            let taking_part = build.modules.iter_mut().filter(|module| module.flags & 3 == 3);
            let mut sizes: Vec<&mut u64> = taking_part.map(|module| &mut module.size).collect();
            return overflow(rng, &mut sizes);
        }
        7 => {
            let count = build.modules.len();
            let first = build.modules.iter_mut().map(|module| &mut module.first_record).collect();
            return bad_records(rng, first, &mut build.records, count);
        }
        8 => plant_nan(rng, build),
        9 => return bad_flag_or_bit(rng, build),
        10 => return bad_answer(rng, build),
        11 => build.count_on_entry = rng.pick(&[65_536, 65_537, u64::from(u32::MAX)]),
        _ => return short_area(rng, chunks, number),
    }
    true
}

fn count_above(rng: &mut Rng) -> (Count, u64) {
    let (count, limit) = rng.pick(&[
        (Count::N, 4_096),
        (Count::G, 64),
        (Count::E, 256),
        (Count::K, 65_535),
        (Count::D, 65_535),
    ]);
    (count, above(rng, limit))
}

/// A table of another length, or a count that its tables don't have.
fn bad_length(rng: &mut Rng, chunks: &mut Chunks) {
    let Chunks { build, damage } = chunks;
    let (n, g, d) = (build.modules.len(), build.groups.len(), build.records.len());
    if rng.one_in(4) {
        let counts = [(Count::N, n, 4_096), (Count::G, g, 64), (Count::D, d, 65_535)];
        let (count, written, limit) = rng.pick(&counts);
        let other = other_length(rng, written);
        // A count above its limit would be refused with 1.
        damage.counts.push((count, if other > limit { written - 1 } else { other } as u64));
        return;
    }
    let table = rng.pick(&Table::ALL).0;
    let length = match table {
        Table::Bits => 4 * n,
        Table::Offsets => n + 1,
        Table::DepModule | Table::DepNext => d + 1,
        Table::Groups => g,
        Table::Answers => g * n,
        _ => n,
    };
    damage.lengths.push((table, other_length(rng, length)));
}

/// Gives two modules that take part the same id (4) or the same execution order (5).
fn share(rng: &mut Rng, build: &mut Build, number: u32) -> bool {
    let part: Vec<usize> =
        (0..build.modules.len()).filter(|m| build.modules[*m].flags & 3 == 3).collect();
    if part.len() < 2 {
        return false;
    }
    let from = rng.at(part.len() - 1) + 1;
    let (a, b) = (part[from], part[rng.at(from)]);
    if number == 4 {
        build.modules[a].id = build.modules[b].id.clone();
    } else {
        build.modules[a].order = build.modules[b].order;
    }
    true
}

/// Puts a NaN into the global options or into a group's, used or not.
fn plant_nan(rng: &mut Rng, build: &mut Build) {
    let at = rng.at(build.groups.len() + 1);
    let value = Some(nan(rng));
    let Some(group) = build.groups.get_mut(at) else {
        return plant_nan_option(rng, &mut build.options, value);
    };
    if rng.one_in(4) {
        group.threshold = value;
    } else {
        plant_nan_option(rng, &mut group.options, value);
    }
}

fn plant_nan_option(rng: &mut Rng, options: &mut Options, value: Option<f64>) {
    match rng.below(4) {
        0 => options.min_size = value,
        1 => options.max_size = value,
        2 => options.min_module_size = value,
        _ => options.max_module_size = value,
    }
}

fn bad_flag_or_bit(rng: &mut Rng, build: &mut Build) -> bool {
    if build.modules.is_empty() {
        return false;
    }
    let at = rng.at(build.modules.len());
    let module = &mut build.modules[at];
    if rng.one_in(2) && bad_bit(rng, build.entries, &mut module.bits) {
        return true;
    }
    module.flags |= rng.pick(&[8, 64, 128]);
    true
}

fn bad_answer(rng: &mut Rng, build: &mut Build) -> bool {
    let least = index(build.names as usize) + 2;
    let groups = build.answers.len();
    if groups == 0 || build.modules.is_empty() {
        return false;
    }
    let answers = &mut build.answers[rng.at(groups)];
    let module = rng.at(answers.len());
    answers[module] = rng.pick(&[least, least, least + 1, u32::MAX]);
    true
}

/// One area of chunk records alone is too short, that of marks among them.
fn short_record_area(rng: &mut Rng, damage: &mut Damage, n: usize) {
    let records = damage.records.get_or_insert(vec![n, n, n, n, 4 * n, n]);
    let area = rng.at(records.len());
    records[area] = rng.at(records[area]);
}

/// An output area shorter than N (12), or scratch shorter than its need (13).
fn short_area(rng: &mut Rng, chunks: &mut Chunks, number: u32) -> bool {
    let n = chunks.build.modules.len();
    if n == 0 {
        return false;
    }
    if number == 12 && rng.one_in(2) {
        short_record_area(rng, &mut chunks.damage, n);
        return true;
    }
    let need = tables::scratch_need(&chunks.build);
    let areas = chunks.damage.areas.get_or_insert(vec![n, n, n, need]);
    if number == 12 {
        areas[rng.at(3)] = n - 1 - rng.at(n);
    } else {
        areas[3] = rng.pick(&[need - 1, need - 1, need / 2, 0]);
    }
    true
}
