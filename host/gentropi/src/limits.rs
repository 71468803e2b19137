//! The limits by design, for a host that sizes its tables by them. The library tests them itself.

/// Modules, and subgroups of a merge.
pub const MODULES: usize = 4_096;
/// Groups.
pub const GROUPS: usize = 64;
/// Entries.
pub const ENTRIES: usize = 256;
/// Names.
pub const NAMES: usize = 65_535;
/// Dependency records.
pub const RECORDS: usize = 65_535;
/// Bytes of one stable id.
pub const ID_BYTES: usize = 1_024;
/// The total of all sizes: up to it each sum is a double exactly.
pub const TOTAL_SIZE: u64 = 1 << 53;
/// Bytes of an entries-aware chunk's name; a longer one is cut and ends with a hash.
pub const CHUNK_NAME_BYTES: usize = 100;
/// Bytes of that hash.
pub const HASH_BYTES: usize = 8;
