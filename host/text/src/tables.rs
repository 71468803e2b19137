//! A case as the flat tables, counts and area lengths that a call takes, damage included.

use std::collections::BTreeSet;

use crate::{Build, Capture, Chunks, Count, Cut, Group, Merge, Options, Table};

mod effective;
mod name;

pub use effective::effective;
pub use name::{NameTables, area_of_name, of_name};

/// How much longer than needed an area is when a case doesn't say.
pub const SPARE: usize = 3;

/// What record 0 of the dependency tables holds: a number out of every range.
pub const RECORD_ZERO: u32 = u32::MAX;

/// What Cut takes.
#[derive(Debug, Clone)]
pub struct CutTables {
    pub n: u64,
    pub minimum: f64,
    pub maximum: f64,
    pub ids: Vec<u8>,
    pub offsets: Vec<u32>,
    pub sizes: Vec<u64>,
}

/// What Merge takes, and the lengths of the areas for numbers, sizes and bits (in entries).
#[derive(Debug, Clone)]
pub struct MergeTables {
    pub k: u64,
    pub e: u64,
    pub threshold: f64,
    pub sizes: Vec<u64>,
    /// Four words for each subgroup.
    pub bits: Vec<u64>,
    pub areas: [usize; 3],
}

/// What Capture takes, and the lengths of the areas for marks and scratch.
#[derive(Debug, Clone)]
pub struct CaptureTables {
    pub n: u64,
    pub d: u64,
    pub recursive: bool,
    pub start: u32,
    pub flags: Vec<u8>,
    pub first: Vec<u32>,
    pub dep_module: Vec<u32>,
    pub dep_next: Vec<u32>,
    pub areas: [usize; 2],
}

/// What Chunks takes.
#[derive(Debug, Clone)]
pub struct BuildTables {
    pub n: u64,
    pub g: u64,
    pub e: u64,
    pub k: u64,
    pub d: u64,
    pub count_on_entry: u64,
    pub options: Options,
    pub flags: Vec<u8>,
    pub sizes: Vec<u64>,
    pub orders: Vec<u32>,
    pub shares: Vec<u32>,
    pub tags: Vec<u64>,
    /// Four words for each module.
    pub bits: Vec<u64>,
    pub ids: Vec<u8>,
    pub offsets: Vec<u32>,
    pub first: Vec<u32>,
    pub dep_module: Vec<u32>,
    pub dep_next: Vec<u32>,
    pub groups: Vec<Group>,
    /// The length of each table of groups, in the order of `Table::OF_GROUPS`.
    pub group_lengths: [usize; 9],
    /// Group by group, one for each module.
    pub answers: Vec<u32>,
    /// Lengths of the areas in the order of the call: chunk of each module, next of each module, the
    /// six of chunk records (bits in words, the mark last), scratch.
    pub areas: [usize; 9],
}

/// The tables of a cut.
pub fn of_cut(cut: &Cut) -> CutTables {
    let (ids, mut offsets) = slice_of(cut.modules.iter().map(|(id, _)| id.as_slice()));
    if let Some(other) = &cut.damage.offsets {
        offsets.clone_from(other);
    }
    let mut sizes = cut.modules.iter().map(|(_, size)| *size).collect();
    cut.damage.fit(Table::Offsets, &mut offsets);
    cut.damage.fit(Table::Sizes, &mut sizes);
    let n = cut.damage.count(Count::N, cut.modules.len() as u64);
    CutTables { n, minimum: cut.minimum, maximum: cut.maximum, ids, offsets, sizes }
}

/// The tables of a merge.
pub fn of_merge(merge: &Merge) -> MergeTables {
    let mut sizes = merge.subgroups.iter().map(|subgroup| subgroup.size).collect();
    let mut bits = merge.subgroups.iter().flat_map(|subgroup| subgroup.bits).collect();
    merge.damage.fit(Table::Sizes, &mut sizes);
    merge.damage.fit(Table::Bits, &mut bits);
    MergeTables {
        k: merge.damage.count(Count::K, merge.subgroups.len() as u64),
        e: merge.damage.count(Count::E, merge.entries),
        threshold: merge.threshold.unwrap_or(0.0),
        sizes,
        bits,
        areas: areas_of_merge(merge),
    }
}

/// The lengths of a merge's areas for numbers, sizes and bits, each in subgroups.
pub fn areas_of_merge(merge: &Merge) -> [usize; 3] {
    lengths(merge.damage.areas.as_deref(), [merge.subgroups.len() + SPARE; 3])
}

/// The tables of a capture.
pub fn of_capture(capture: &Capture) -> CaptureTables {
    let records = || capture.records.iter();
    let mut tables = CaptureTables {
        n: capture.damage.count(Count::N, capture.flags.len() as u64),
        d: capture.damage.count(Count::D, capture.records.len() as u64),
        recursive: capture.recursive,
        start: capture.start,
        flags: capture.flags.clone(),
        first: capture.first.clone(),
        dep_module: from_one(records().map(|record| record.module)),
        dep_next: from_one(records().map(|record| record.next)),
        areas: areas_of_capture(capture),
    };
    capture.damage.fit(Table::Flags, &mut tables.flags);
    capture.damage.fit(Table::First, &mut tables.first);
    capture.damage.fit(Table::DepModule, &mut tables.dep_module);
    capture.damage.fit(Table::DepNext, &mut tables.dep_next);
    tables
}

/// The lengths of a capture's areas for marks and scratch.
pub fn areas_of_capture(capture: &Capture) -> [usize; 2] {
    lengths(capture.damage.areas.as_deref(), [capture.flags.len() + SPARE; 2])
}

/// The tables of a build.
pub fn of_chunks(chunks: &Chunks) -> BuildTables {
    let Chunks { build, damage } = chunks;
    let mut tables = undamaged(build, areas_of_chunks(chunks));
    if let Some(other) = &damage.offsets {
        tables.offsets.clone_from(other);
    }
    damage.fit(Table::Flags, &mut tables.flags);
    damage.fit(Table::Sizes, &mut tables.sizes);
    damage.fit(Table::Orders, &mut tables.orders);
    damage.fit(Table::Shares, &mut tables.shares);
    damage.fit(Table::Tags, &mut tables.tags);
    damage.fit(Table::Bits, &mut tables.bits);
    damage.fit(Table::Offsets, &mut tables.offsets);
    damage.fit(Table::First, &mut tables.first);
    damage.fit(Table::DepModule, &mut tables.dep_module);
    damage.fit(Table::DepNext, &mut tables.dep_next);
    damage.fit(Table::Groups, &mut tables.groups);
    tables.group_lengths =
        Table::OF_GROUPS.map(|(table, _)| damage.length(table, tables.groups.len()));
    damage.fit(Table::Answers, &mut tables.answers);
    tables.n = damage.count(Count::N, tables.n);
    tables.g = damage.count(Count::G, tables.g);
    tables.e = damage.count(Count::E, tables.e);
    tables.k = damage.count(Count::K, tables.k);
    tables.d = damage.count(Count::D, tables.d);
    tables
}

/// The lengths of a build's areas in the order of the call; unless it says, with room to spare.
pub fn areas_of_chunks(chunks: &Chunks) -> [usize; 9] {
    let Chunks { build, damage } = chunks;
    let spare = build.modules.len() + SPARE;
    let areas = match damage.areas {
        // The need is not counted where it isn't asked for.
        Some(_) => [0; 4],
        None => [spare, spare, spare, scratch_need(build) + SPARE],
    };
    areas_of(lengths(damage.areas.as_deref(), areas), damage.records.as_deref())
}

/// The tables of a build without its damage, and areas of these lengths.
fn undamaged(build: &Build, areas: [usize; 9]) -> BuildTables {
    let modules = || build.modules.iter();
    let records = || build.records.iter();
    let (ids, offsets) = slice_of(modules().map(|module| module.id.as_slice()));
    BuildTables {
        n: build.modules.len() as u64,
        g: build.groups.len() as u64,
        e: build.entries,
        k: build.names,
        d: build.records.len() as u64,
        count_on_entry: build.count_on_entry,
        options: build.options.clone(),
        flags: modules().map(|module| module.flags).collect(),
        sizes: modules().map(|module| module.size).collect(),
        orders: modules().map(|module| module.order).collect(),
        shares: modules().map(|module| module.share_count).collect(),
        tags: modules().map(|module| module.tags).collect(),
        bits: modules().flat_map(|module| module.bits).collect(),
        ids,
        offsets,
        first: modules().map(|module| module.first_record).collect(),
        dep_module: from_one(records().map(|record| record.module)),
        dep_next: from_one(records().map(|record| record.next)),
        groups: build.groups.clone(),
        group_lengths: [build.groups.len(); 9],
        answers: build.answers.concat(),
        areas,
    }
}

/// The scratch that a build needs, in words: P×N + 32×N.
pub fn scratch_need(build: &Build) -> usize {
    let named = |answers: &Vec<u32>| {
        let names: BTreeSet<u32> = answers.iter().copied().filter(|answer| *answer >= 2).collect();
        names.len()
    };
    let pairs: usize = build.answers.iter().map(named).sum();
    (pairs + 32) * build.modules.len()
}

/// Ids or names one after another, and their offsets.
fn slice_of<'a>(ids: impl Iterator<Item = &'a [u8]>) -> (Vec<u8>, Vec<u32>) {
    let mut slice = Vec::new();
    let mut offsets = vec![0];
    for id in ids {
        slice.extend_from_slice(id);
        offsets.push(u32::try_from(slice.len()).unwrap_or(u32::MAX));
    }
    (slice, offsets)
}

/// A table of records, with record 0 before the others.
fn from_one(numbers: impl Iterator<Item = u32>) -> Vec<u32> {
    std::iter::once(RECORD_ZERO).chain(numbers).collect()
}

/// The areas of a build from the lengths for modules (twice), chunk records and scratch; those of
/// the records may be told apart.
fn areas_of(
    [chunk_of, next_of, records, scratch]: [usize; 4],
    apart: Option<&[usize]>,
) -> [usize; 9] {
    let [first, group, name, size, bits, mark] =
        lengths(apart, [records, records, records, records, 4 * records, records]);
    [chunk_of, next_of, first, group, name, size, bits, mark, scratch]
}

/// The lengths that a case gives, or these.
fn lengths<const A: usize>(given: Option<&[usize]>, otherwise: [usize; A]) -> [usize; A] {
    given.and_then(|given| given.try_into().ok()).unwrap_or(otherwise)
}
