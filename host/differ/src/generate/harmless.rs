//! Changes that the tables of refusals allow: areas exactly full, other ends of the slice of ids or
//! names, more entries or names than are used.

use text::{Build, Capture, Chunks, Count, Cut, Damage, Merge, Name, Question, tables};

use super::{ids::any_bytes, records::index};
use crate::rng::Rng;

/// Changes a good question without spoiling it.
pub fn adorn(rng: &mut Rng, question: &mut Question) {
    match question {
        Question::Cut(cut) => adorn_cut(rng, cut),
        Question::Merge(merge) => adorn_merge(rng, merge),
        Question::Capture(capture) => adorn_capture(capture),
        Question::Name(name) => adorn_name(rng, name),
        Question::Chunks(chunks) => adorn_build(rng, chunks),
        Question::Sim(_) | Question::Filter(_) => {}
    }
}

fn adorn_cut(rng: &mut Rng, cut: &mut Cut) {
    let ids: Vec<&[u8]> = cut.modules.iter().map(|(id, _)| id.as_slice()).collect();
    cut.damage.offsets = Some(narrowed(rng, &ids));
}

fn adorn_merge(rng: &mut Rng, merge: &mut Merge) {
    merge.damage.areas = Some(vec![merge.subgroups.len(); 3]);
    more(rng, &mut merge.damage, Count::E, merge.entries, 256);
}

fn adorn_capture(capture: &mut Capture) {
    capture.damage.areas = Some(vec![capture.flags.len(); 2]);
}

fn adorn_name(rng: &mut Rng, name: &mut Name) {
    let needed = name.group_names[name.number as usize].len().max(100);
    name.damage.areas = Some(vec![needed]);
    name.damage.name_offsets = Some(surrounded(rng, &mut name.group_names));
    if rng.one_in(2) {
        name.damage.entry_offsets = Some(surrounded(rng, &mut name.entry_names));
    }
}

/// Puts bytes that belong to no name, of any kind, at both ends of the slice; the offsets of the names
/// that were there.
fn surrounded(rng: &mut Rng, names: &mut [Vec<u8>]) -> Vec<u32> {
    let before = any_bytes(rng, 4);
    let mut offsets = vec![index(if names.is_empty() { 0 } else { before.len() })];
    for name in &*names {
        offsets.push(offsets[offsets.len() - 1] + index(name.len()));
    }
    if let Some(first) = names.first_mut() {
        first.splice(0..0, before);
    }
    if let Some(last) = names.last_mut() {
        last.extend(any_bytes(rng, 4));
    }
    offsets
}

fn adorn_build(rng: &mut Rng, chunks: &mut Chunks) {
    let Chunks { build, damage } = chunks;
    let n = build.modules.len();
    damage.areas = Some(vec![n, n, n, tables::scratch_need(build)]);
    more(rng, damage, Count::E, build.entries, 256);
    more(rng, damage, Count::K, build.names, 65_535);
    if rng.one_in(2) && takes_part_at_no_end(build) {
        let ids: Vec<&[u8]> = build.modules.iter().map(|module| module.id.as_slice()).collect();
        damage.offsets = Some(narrowed(rng, &ids));
    }
    // Some of the areas of chunk records have a few items to spare.
    damage.records =
        rng.maybe(3, |rng| [n, n, n, n, 4 * n, n].map(|full| full + rng.at(3)).to_vec());
}

/// Whether the first and the last module may have any id.
fn takes_part_at_no_end(build: &Build) -> bool {
    let outside = |module: Option<&text::Module>| module.is_none_or(|module| module.flags & 3 != 3);
    outside(build.modules.first()) && outside(build.modules.last())
}

/// Raises a count, at most to its limit.
fn more(rng: &mut Rng, damage: &mut Damage, count: Count, written: u64, limit: u64) {
    if rng.one_in(2) {
        let drawn = rng.between(written, limit);
        damage.counts.push((count, rng.pick(&[written, limit, drawn])));
    }
}

/// Offsets that leave out some bytes at both ends of the slice.
fn narrowed(rng: &mut Rng, ids: &[&[u8]]) -> Vec<u32> {
    let mut offsets = vec![0];
    for id in ids {
        offsets.push(offsets[offsets.len() - 1] + index(id.len()));
    }
    if let [first, .., last] = ids {
        offsets[0] = index(rng.at(first.len() + 1));
        offsets[ids.len()] -= index(rng.at(last.len() + 1));
    }
    offsets
}
