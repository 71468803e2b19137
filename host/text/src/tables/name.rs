//! The tables of a name call.

use super::{SPARE, lengths, slice_of};
use crate::{Count, Name, Table};

/// What the area has at least when a case doesn't say, besides what is spare.
const NAME_BYTES: usize = 100;

/// What Name takes, and the length of the area.
#[derive(Debug, Clone)]
pub struct NameTables {
    pub k: u64,
    pub e: u64,
    pub group_names: Vec<u8>,
    pub group_offsets: Vec<u32>,
    pub entry_names: Vec<u8>,
    pub entry_offsets: Vec<u32>,
    pub number: u32,
    pub entries_aware: bool,
    pub bits: [u64; 4],
    pub hash: Vec<u8>,
    pub area: usize,
}

/// The tables of a name call.
pub fn of_name(name: &Name) -> NameTables {
    let Name { group_names, entry_names, damage, .. } = name;
    let [area] = area_of_name(name);
    let (group_bytes, group_offsets) = slice_of(group_names.iter().map(Vec::as_slice));
    let (entry_bytes, entry_offsets) = slice_of(entry_names.iter().map(Vec::as_slice));
    let mut tables = NameTables {
        k: damage.count(Count::K, group_names.len() as u64),
        e: damage.count(Count::E, entry_names.len() as u64),
        group_names: group_bytes,
        group_offsets: damage.name_offsets.clone().unwrap_or(group_offsets),
        entry_names: entry_bytes,
        entry_offsets: damage.entry_offsets.clone().unwrap_or(entry_offsets),
        number: name.number,
        entries_aware: name.entries_aware,
        bits: name.bits,
        hash: name.hash.clone(),
        area,
    };
    damage.fit(Table::NameOffsets, &mut tables.group_offsets);
    damage.fit(Table::EntryOffsets, &mut tables.entry_offsets);
    tables
}

/// The length of a name call's area; unless it says, with room for all names of groups and to spare.
pub fn area_of_name(name: &Name) -> [usize; 1] {
    let bytes: usize = name.group_names.iter().map(Vec::len).sum();
    lengths(name.damage.areas.as_deref(), [bytes.max(NAME_BYTES) + SPARE])
}
