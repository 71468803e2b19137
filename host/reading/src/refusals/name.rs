//! Note 1's refusals of a name.

use text::tables::NameTables;

use super::{ENTRIES, NAMES, lengths_differ, lowest};
use crate::{id, name::group_name, utf8::is_utf8};

/// The shortest area, and how many bytes a hash has.
const AREA: usize = 100;
const HASH_BYTES: usize = 8;

/// Name tests 1, 2, 3 (offsets, without a limit of length), 10 (the name's number), 12, 14, 15, 16.
pub fn name(tables: &NameTables) -> Option<u32> {
    let NameTables { k, e, group_names, group_offsets, entry_names, entry_offsets, .. } = tables;
    let groups = || (0..*k as usize).map(|number| id(group_names, group_offsets, number));
    let entries = || (0..*e as usize).map(|entry| id(entry_names, entry_offsets, entry));
    let hash = &tables.hash;
    lowest(&[
        (1, &|| *k > NAMES || *e > ENTRIES),
        (2, &|| {
            lengths_differ(&[group_offsets.len()], k + 1)
                || lengths_differ(&[entry_offsets.len()], e + 1)
        }),
        (3, &|| bad_offsets(group_names, group_offsets) || bad_offsets(entry_names, entry_offsets)),
        (10, &|| u64::from(tables.number) >= *k),
        (12, &|| tables.area < AREA.max(group_name(tables).len())),
        (14, &|| groups().chain(entries()).any(|name| !is_utf8(name))),
        (15, &|| groups().zip(groups().skip(1)).any(|(one, next)| one >= next)),
        (16, &|| hash.len() != HASH_BYTES || hash.iter().any(|byte| *byte >= 128)),
    ])
}

/// 3, of names: an offset falls or passes the end.
fn bad_offsets(names: &[u8], offsets: &[u32]) -> bool {
    offsets.windows(2).any(|pair| pair[1] < pair[0])
        || offsets.iter().any(|offset| *offset as usize > names.len())
}
