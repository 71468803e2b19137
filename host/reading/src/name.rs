//! The name of a chunk.

use text::tables::NameTables;

use crate::{id, utf8::is_utf8};

/// The bytes that an entries-aware chunk's name has at most.
const LONGEST: usize = 100;

/// Where the full name of a longer one is cut, unless that divides a character.
const CUT: usize = 91;

/// What stands between the parts of a name.
const SEPARATOR: u8 = b'~';

/// The name of a chunk whose tables are accepted.
pub fn name(tables: &NameTables) -> Vec<u8> {
    if !tables.entries_aware {
        return group_name(tables).to_vec();
    }
    let full = full_name(tables);
    if full.len() <= LONGEST {
        return full;
    }
    // A name is UTF-8, so its front is UTF-8 exactly where no character is divided.
    let kept = (0..=CUT).rev().find(|end| is_utf8(&full[..*end])).unwrap_or(0);
    [&full[..kept], &[SEPARATOR], &tables.hash].concat()
}

/// The name that the chunk's group gives.
pub fn group_name(tables: &NameTables) -> &[u8] {
    id(&tables.group_names, &tables.group_offsets, tables.number as usize)
}

/// The group's name, then the separator and the name of each of the chunk's entries that has one.
pub fn full_name(tables: &NameTables) -> Vec<u8> {
    let mut full = group_name(tables).to_vec();
    for entry in (0..tables.e as usize).filter(|entry| holds(tables.bits, *entry)) {
        let name = id(&tables.entry_names, &tables.entry_offsets, entry);
        if !name.is_empty() {
            full.push(SEPARATOR);
            full.extend(name);
        }
    }
    full
}

/// Whether an entry is among the bits.
fn holds(bits: [u64; 4], entry: usize) -> bool {
    bits[entry / 64] >> (entry % 64) & 1 == 1
}

#[cfg(test)]
mod tests {
    use text::{Answer, read_cases};

    /// What the reading answers to a text's only case, as text; a refusal as its number.
    fn answered(case: &str) -> Result<String, u32> {
        let question = &read_cases(case).expect("the case can be read")[0].question;
        match crate::answer(question)? {
            Answer::Name(name) => Ok(String::from_utf8(name).expect("a name is UTF-8")),
            other => panic!("no name: {other:?}"),
        }
    }

    /// One group and one entry, of these names, asked for an entries-aware chunk of that entry.
    fn joined(group: &str, entry: &str) -> Result<String, u32> {
        let pairs = |name: &str| match name {
            "" => ".".to_string(),
            name => name.bytes().map(|byte| format!("{byte:02x}")).collect(),
        };
        let (group, entry) = (pairs(group), pairs(entry));
        answered(&format!("name a 1 1 0 1 1 0 0 0 3031323334353637 {group} {entry}\n"))
    }

    #[test]
    fn entries_without_a_name_are_passed_over() {
        assert_eq!(joined("a", "b"), Ok("a~b".into()));
        assert_eq!(joined("a", ""), Ok("a".into()));
        assert_eq!(joined("", "b"), Ok("~b".into()));
        assert_eq!(answered("name a 1 0 0 1 1 0 0 0 3031323334353637 61\n"), Ok("a".into()));
    }

    #[test]
    fn a_name_above_a_hundred_bytes_is_cut() {
        let entry = "e".repeat(98);
        assert_eq!(joined("a", &entry), Ok(format!("a~{entry}")));
        let cut = format!("a~{}~01234567", "e".repeat(89));
        assert_eq!(joined("a", &"e".repeat(99)), Ok(cut.clone()));
        assert_eq!(joined("a", &"e".repeat(400)), Ok(cut));
    }

    #[test]
    fn no_character_is_divided() {
        for (before, character) in [(90, "é"), (89, "€"), (90, "€"), (88, "😀"), (90, "😀")]
        {
            let entry = "e".repeat(before - 2) + character + &"e".repeat(20);
            let cut = format!("a~{}~01234567", "e".repeat(before - 2));
            assert_eq!(joined("a", &entry), Ok(cut), "{character} after {before} bytes");
        }
        let kept = format!("a~{}é", "e".repeat(87));
        assert_eq!(joined("a", &("e".repeat(87) + "é" + &"e".repeat(20))), Ok(kept + "~01234567"));
    }

    #[test]
    fn the_first_refusal_in_the_order_of_the_call() {
        let hash = "3031323334353637";
        assert_eq!(answered(&format!("name a 1 0 1 0 0 0 0 0 {hash} ff\n")), Err(10));
        assert_eq!(
            answered(&format!("with areas 99\nname a 1 0 0 0 0 0 0 0 {hash} ff\n")),
            Err(12)
        );
        assert_eq!(answered("name a 2 0 0 0 0 0 0 0 . ff 61\n"), Err(14));
        assert_eq!(answered("name a 2 0 0 0 0 0 0 0 . 62 61\n"), Err(15));
        assert_eq!(answered("name a 2 0 0 0 0 0 0 0 . 61 62\n"), Err(16));
    }
}
