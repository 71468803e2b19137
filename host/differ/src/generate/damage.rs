//! Damaged copies of good questions, each with the number that has to be refused.

use text::{Capture, Count, Cut, Filter, Merge, Question, Sim, Table};

use super::{damage_build, damage_name, numbers::TOTAL, records::index};
use crate::rng::Rng;

/// Damages a good question in one to three ways. Hands back the lowest number among them, or
/// nothing if none of them can be done to it.
pub fn damage(rng: &mut Rng, question: &mut Question) -> Option<u32> {
    let numbers = tested(question);
    let ways = rng.pick(&[1, 1, 1, 2, 3]);
    let mut chosen: Vec<u32> = (0..ways).map(|_| rng.pick(numbers)).collect();
    chosen.sort_unstable();
    chosen.dedup();
    // The lowest comes last, so that no other damage can take it back.
    let done = chosen.into_iter().rev().filter(|number| plant(rng, question, *number));
    done.min()
}

/// The numbers that a call tests.
pub fn tested(question: &Question) -> &'static [u32] {
    match question {
        Question::Sim(_) => &[3],
        Question::Cut(_) => &[1, 2, 3, 6, 8],
        Question::Capture(_) => &[1, 2, 7, 9, 10, 12, 13],
        Question::Filter(_) => &[6, 8],
        Question::Merge(_) => &[1, 2, 6, 8, 9, 12],
        Question::Name(_) => &[1, 2, 3, 10, 12, 14, 15, 16],
        Question::Chunks(_) => &[1, 2, 3, 4, 5, 6, 7, 8, 9, 10, 11, 12, 13],
    }
}

/// Makes a number apply, if it can be done.
fn plant(rng: &mut Rng, question: &mut Question, number: u32) -> bool {
    match question {
        Question::Sim(sim) => plant_similarity(rng, sim),
        Question::Cut(cut) => plant_cut(rng, cut, number),
        Question::Capture(capture) => plant_capture(rng, capture, number),
        Question::Filter(filter) => plant_filter(rng, filter, number),
        Question::Merge(merge) => plant_merge(rng, merge, number),
        Question::Name(name) => damage_name::plant(rng, name, number),
        Question::Chunks(chunks) => damage_build::plant(rng, chunks, number),
    }
}

/// A NaN of either sign.
pub fn nan(rng: &mut Rng) -> f64 {
    f64::from_bits(rng.pick(&[0x7ff8 << 48, 0xfff8 << 48, 0x7ff0 << 48 | 1, u64::MAX]))
}

/// A count right above its limit, or far above.
pub fn above(rng: &mut Rng, limit: u64) -> u64 {
    rng.pick(&[limit + 1, limit + 1, 2 * limit, u64::from(u32::MAX), u64::MAX])
}

/// Another length than this.
pub fn other_length(rng: &mut Rng, length: usize) -> usize {
    if length > 0 && rng.one_in(2) { length - 1 } else { length + rng.at(2) + 1 }
}

/// Makes sizes add to 2^53 + 1, or wraps them around 2^64.
pub fn overflow(rng: &mut Rng, sizes: &mut [&mut u64]) -> bool {
    let total: u64 = sizes.iter().map(|size| **size).sum();
    let count = sizes.len();
    match count {
        0 => return false,
        1 => *sizes[0] = rng.pick(&[TOTAL + 1, u64::MAX]),
        _ if rng.one_in(3) => {
            *sizes[0] = u64::MAX;
            *sizes[count - 1] = u64::MAX;
        }
        _ => *sizes[rng.at(count)] += TOTAL + 1 - total,
    }
    true
}

fn plant_similarity(rng: &mut Rng, sim: &mut Sim) -> bool {
    let id = if rng.one_in(2) { &mut sim.left } else { &mut sim.right };
    id.resize(1_025 + rng.at(2), b'a');
    true
}

fn plant_cut(rng: &mut Rng, cut: &mut Cut, number: u32) -> bool {
    let count = cut.modules.len();
    match number {
        1 => cut.damage.counts.push((Count::N, above(rng, 4_096))),
        2 => match rng.below(3) {
            0 => cut.damage.counts.push((Count::N, other_length(rng, count) as u64)),
            1 => cut.damage.lengths.push((Table::Offsets, other_length(rng, count + 1))),
            _ => cut.damage.lengths.push((Table::Sizes, other_length(rng, count))),
        },
        3 => {
            let ids: Vec<&mut Vec<u8>> = cut.modules.iter_mut().map(|(id, _)| id).collect();
            cut.damage.offsets = bad_offsets(rng, ids);
        }
        6 => {
            let mut sizes: Vec<&mut u64> = cut.modules.iter_mut().map(|(_, size)| size).collect();
            return overflow(rng, &mut sizes);
        }
        _ if rng.one_in(2) => cut.minimum = nan(rng),
        _ => cut.maximum = nan(rng),
    }
    true
}

/// Offsets that fall or pass the end; or an id is made too long, and they stay as they are.
pub fn bad_offsets(rng: &mut Rng, mut ids: Vec<&mut Vec<u8>>) -> Option<Vec<u32>> {
    if !ids.is_empty() && rng.one_in(3) {
        let at = rng.at(ids.len());
        ids[at].resize(1_025 + rng.at(2), b'z');
        return None;
    }
    let lengths: Vec<usize> = ids.iter().map(|id| id.len()).collect();
    Some(bad_offsets_of(rng, &lengths))
}

/// Offsets of ids or names of these lengths that fall or pass the end.
pub fn bad_offsets_of(rng: &mut Rng, lengths: &[usize]) -> Vec<u32> {
    let mut offsets = vec![0];
    for length in lengths {
        offsets.push(offsets[offsets.len() - 1] + index(*length));
    }
    let end = offsets[lengths.len()];
    let at = rng.at(lengths.len() + 1);
    if at > 0 && offsets[at - 1] > 0 && rng.one_in(2) {
        offsets[at] = offsets[at - 1] - 1;
    } else {
        offsets[at] = rng.pick(&[end + 1, end + 1, u32::MAX]);
    }
    offsets
}

fn plant_capture(rng: &mut Rng, capture: &mut Capture, number: u32) -> bool {
    let (modules, records) = (capture.flags.len(), capture.records.len());
    let damage = &mut capture.damage;
    match number {
        1 if rng.one_in(2) => damage.counts.push((Count::N, above(rng, 4_096))),
        1 => damage.counts.push((Count::D, above(rng, 65_535))),
        2 => match rng.below(6) {
            0 => damage.counts.push((Count::N, other_length(rng, modules) as u64)),
            1 => damage.counts.push((Count::D, other_length(rng, records) as u64)),
            2 => damage.lengths.push((Table::Flags, other_length(rng, modules))),
            3 => damage.lengths.push((Table::First, other_length(rng, modules))),
            4 => damage.lengths.push((Table::DepModule, other_length(rng, records + 1))),
            _ => damage.lengths.push((Table::DepNext, other_length(rng, records + 1))),
        },
        7 => {
            let first: Vec<&mut u32> = capture.first.iter_mut().collect();
            return bad_records(rng, first, &mut capture.records, modules);
        }
        9 => capture.flags[rng.at(modules)] |= rng.pick(&[8, 16, 128]),
        10 => capture.start = rng.pick(&[index(modules), index(modules) + 1, u32::MAX]),
        12 => damage.areas.get_or_insert(vec![modules + 3, modules + 3])[0] = rng.at(modules),
        _ => damage.areas.get_or_insert(vec![modules + 3, modules + 3])[1] = rng.at(modules),
    }
    true
}

/// A first record or a next above D, a module not below N, or a chain without its zero.
pub fn bad_records(
    rng: &mut Rng,
    mut first: Vec<&mut u32>,
    records: &mut [text::Record],
    modules: usize,
) -> bool {
    let count = records.len();
    let outside = rng.pick(&[index(count) + 1, u32::MAX]);
    if first.is_empty() {
        return false;
    }
    let start = rng.at(first.len());
    match rng.below(4) {
        1 if count > 0 => records[rng.at(count)].next = outside,
        2 if count > 0 => records[rng.at(count)].module = rng.pick(&[index(modules), u32::MAX]),
        3 if count > 0 => {
            let at = rng.at(count);
            *first[start] = index(at) + 1;
            records[at].next = index(at) + 1;
        }
        _ => *first[start] = outside,
    }
    true
}

fn plant_filter(rng: &mut Rng, filter: &mut Filter, number: u32) -> bool {
    match number {
        6 => filter.size = rng.pick(&[TOTAL + 1, TOTAL + 2, u64::MAX]),
        _ if rng.one_in(2) => filter.min_module_size = Some(nan(rng)),
        _ => filter.max_module_size = Some(nan(rng)),
    }
    true
}

fn plant_merge(rng: &mut Rng, merge: &mut Merge, number: u32) -> bool {
    let count = merge.subgroups.len();
    match number {
        1 if rng.one_in(2) => merge.damage.counts.push((Count::K, above(rng, 4_096))),
        1 => merge.damage.counts.push((Count::E, above(rng, 256))),
        2 => match rng.below(3) {
            0 => merge.damage.counts.push((Count::K, other_length(rng, count) as u64)),
            1 => merge.damage.lengths.push((Table::Sizes, other_length(rng, count))),
            _ => merge.damage.lengths.push((Table::Bits, other_length(rng, 4 * count))),
        },
        6 => {
            let mut sizes: Vec<&mut u64> =
                merge.subgroups.iter_mut().map(|subgroup| &mut subgroup.size).collect();
            return overflow(rng, &mut sizes);
        }
        8 => merge.threshold = Some(nan(rng)),
        9 if count > 0 => {
            let at = rng.at(count);
            return bad_bit(rng, merge.entries, &mut merge.subgroups[at].bits);
        }
        12 if count > 0 => {
            let area = rng.at(3);
            merge.damage.areas.get_or_insert(vec![count; 3])[area] = rng.at(count);
        }
        _ => return false,
    }
    true
}

/// Sets an entry bit at or above the count of entries, if there is room for one.
pub fn bad_bit(rng: &mut Rng, entries: u64, bits: &mut [u64; 4]) -> bool {
    if entries >= 256 {
        return false;
    }
    let between = rng.between(entries, 255);
    let bit = rng.pick(&[entries, 255, between]);
    bits[bit as usize / 64] |= 1 << (bit % 64);
    true
}
