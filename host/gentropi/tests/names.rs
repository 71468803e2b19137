//! Names of chunks through the safe layer: what a name is, each refusal, and the largest tables.

use gentropi::{
    ChunkToName, IdBuf, Ids, Refusal, chunk_name, chunk_name_to_vec, limits, needs, raw,
};

/// Names of groups and entries, with tables of their own.
struct Named {
    groups: IdBuf,
    entries: IdBuf,
}

impl Named {
    fn new(groups: &[&str], entries: &[&str]) -> Self {
        Self { groups: groups.iter().collect(), entries: entries.iter().collect() }
    }

    /// An entries-aware chunk of the first name with the first 64 entries.
    fn chunk(&self) -> ChunkToName<'_> {
        ChunkToName {
            group_names: self.groups.as_ids(),
            entry_names: self.entries.as_ids(),
            number: 0,
            entries_aware: true,
            bits: [u64::MAX, 0, 0, 0],
            hash: b"01234567",
        }
    }
}

/// The name as text.
fn name(chunk: &ChunkToName<'_>) -> Result<String, Refusal> {
    chunk_name_to_vec(chunk).map(|name| String::from_utf8(name).expect("a name is UTF-8"))
}

#[test]
fn entries_follow_the_group() {
    let named = Named::new(&["ui", "vendor"], &["shop", "", "guide"]);
    assert_eq!(name(&named.chunk()), Ok("ui~shop~guide".into()));
    let second = ChunkToName { number: 1, bits: [4, 0, 0, 1 << 63], ..named.chunk() };
    assert_eq!(name(&second), Ok("vendor~guide".into()));
    let other = ChunkToName { entries_aware: false, ..named.chunk() };
    assert_eq!(name(&other), Ok("ui".into()));
}

#[test]
fn a_long_name_is_cut_before_a_character() {
    let (whole, cut) = ("g".repeat(100), "g".repeat(90));
    assert_eq!(name(&Named::new(&[&whole], &[]).chunk()), Ok(whole.clone()));
    let accented = format!("{cut}é{}", "g".repeat(20));
    let named = Named::new(&[&accented], &[]);
    assert_eq!(name(&named.chunk()), Ok(format!("{cut}~01234567")));
    let other = ChunkToName { entries_aware: false, ..named.chunk() };
    assert_eq!(name(&other), Ok(accented));
}

#[test]
fn bytes_past_the_name_are_kept() {
    let named = Named::new(&["ui"], &["a"]);
    let mut area = [9; 120];
    assert_eq!(chunk_name(&named.chunk(), &mut area), Ok(b"ui~a".as_slice()));
    assert_eq!((&area[..4], &area[4..]), (b"ui~a".as_slice(), [9; 116].as_slice()));
}

/// The refusal of a call that must leave its area and its length as they are.
fn refused(tables: &raw::NameTables<'_>, bytes: usize) -> Refusal {
    let (mut area, mut length) = (vec![9; bytes], 7);
    let refusal = Refusal::check(raw::name(tables, &mut area, &mut length));
    assert!(length == 7 && area.iter().all(|byte| *byte == 9));
    refusal.expect_err("it is refused")
}

/// The names "a", "b" of groups and "c" of an entry.
const TABLES: raw::NameTables<'static> = raw::NameTables {
    k: 2,
    e: 1,
    group_names: b"ab",
    group_offsets: &[0, 1, 2],
    entry_names: b"c",
    entry_offsets: &[0, 1],
    number: 0,
    entries_aware: true,
    bits: [1, 0, 0, 0],
    hash: b"01234567",
};

#[test]
fn each_refusal() {
    let with = |tables| refused(&tables, 100);
    assert_eq!(with(raw::NameTables { k: limits::NAMES + 1, ..TABLES }), Refusal::COUNT);
    assert_eq!(with(raw::NameTables { e: limits::ENTRIES + 1, ..TABLES }), Refusal::COUNT);
    assert_eq!(with(raw::NameTables { k: usize::MAX, ..TABLES }), Refusal::COUNT);
    assert_eq!(with(raw::NameTables { k: 1, ..TABLES }), Refusal::LENGTH);
    assert_eq!(with(raw::NameTables { e: 2, ..TABLES }), Refusal::LENGTH);
    assert_eq!(with(raw::NameTables { group_offsets: &[0, 2, 1], ..TABLES }), Refusal::ID);
    assert_eq!(with(raw::NameTables { entry_offsets: &[0, 2], ..TABLES }), Refusal::ID);
    assert_eq!(with(raw::NameTables { number: 2, ..TABLES }), Refusal::NUMBER);
    assert_eq!(with(raw::NameTables { entry_names: &[0xc3], ..TABLES }), Refusal::UTF8);
    assert_eq!(with(raw::NameTables { group_names: b"ba", ..TABLES }), Refusal::NAME_ORDER);
    assert_eq!(with(raw::NameTables { group_names: b"aa", ..TABLES }), Refusal::NAME_ORDER);
    assert_eq!(with(raw::NameTables { hash: b"0123456", ..TABLES }), Refusal::HASH);
    assert_eq!(with(raw::NameTables { hash: &[128; 8], ..TABLES }), Refusal::HASH);
}

#[test]
fn the_lowest_number_comes_back() {
    let spoiled = raw::NameTables { group_names: &[0xff, 0xff], hash: b"", ..TABLES };
    assert_eq!(refused(&spoiled, 99), Refusal::AREA);
    assert_eq!(refused(&spoiled, 100), Refusal::UTF8);
    let unordered = raw::NameTables { group_names: b"aa", hash: b"", ..TABLES };
    assert_eq!(refused(&unordered, 100), Refusal::NAME_ORDER);
}

#[test]
fn a_name_needs_what_is_said() {
    let long = [b'g'; 150];
    for (length, entries_aware) in [(1, true), (100, true), (101, true), (150, true), (150, false)]
    {
        let offsets = [0, length];
        let tables = raw::NameTables {
            k: 1,
            group_names: &long,
            group_offsets: &offsets,
            entries_aware,
            ..TABLES
        };
        let bytes = needs::name_bytes(length as usize);
        assert_eq!(refused(&tables, bytes - 1), Refusal::AREA, "{length} bytes");
        assert_eq!(raw::name(&tables, &mut vec![0; bytes], &mut 0), 0, "{length} bytes");
    }
}

#[test]
fn the_binding_asks_for_enough() {
    let named = Named::new(&["a", &"g".repeat(300)], &[]);
    let chunk = ChunkToName { number: 1, entries_aware: false, ..named.chunk() };
    assert_eq!(chunk.area_bytes(), 300);
    let beyond = ChunkToName { number: u32::MAX, ..chunk };
    assert_eq!((beyond.area_bytes(), name(&beyond)), (100, Err(Refusal::NUMBER)));
    let nothing = Ids { bytes: b"", offsets: &[] };
    let empty = ChunkToName { group_names: nothing, ..chunk };
    assert_eq!((empty.area_bytes(), name(&empty)), (100, Err(Refusal::LENGTH)));
}

/// So many names of five digits, the last of them asked for.
fn last_of(count: usize) -> Result<String, Refusal> {
    let groups: IdBuf = (0..count).map(|number| format!("{number:05}")).collect();
    let entries: IdBuf = (0..limits::ENTRIES).map(|_| "e").collect();
    let chunk = ChunkToName {
        group_names: groups.as_ids(),
        entry_names: entries.as_ids(),
        number: u32::try_from(count - 1).expect("a small count"),
        entries_aware: true,
        bits: [0, 0, 0, 1 << 63],
        hash: b"01234567",
    };
    name(&chunk)
}

#[test]
fn the_most_names() {
    assert_eq!(last_of(limits::NAMES), Ok("65534~e".into()));
    assert_eq!(last_of(limits::NAMES + 1), Err(Refusal::COUNT));
}

#[test]
fn the_most_entries() {
    let one_more: IdBuf = (0..=limits::ENTRIES).map(|_| "e").collect();
    let named = Named::new(&["a"], &[]);
    let chunk = ChunkToName { entry_names: one_more.as_ids(), ..named.chunk() };
    assert_eq!(name(&chunk), Err(Refusal::COUNT));
}
