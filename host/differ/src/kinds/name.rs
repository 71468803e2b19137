//! Kinds of question for Name.

use text::Name;

use super::Kinds;

pub fn kinds(name: &Name, answer: &[u8]) -> Kinds {
    let holds = |entry: usize| name.bits[entry / 64] >> (entry % 64) & 1 == 1;
    let entries = name.entry_names.len();
    let of_chunk: Vec<&Vec<u8>> =
        (0..entries).filter(|entry| holds(*entry)).map(|entry| &name.entry_names[entry]).collect();
    let shown = || of_chunk.iter().filter(|entry| !entry.is_empty());
    let group_name = &name.group_names[name.number as usize];
    let full = group_name.len() + shown().map(|entry| 1 + entry.len()).sum::<usize>();
    let aware = name.entries_aware;
    let (is_cut, kept) = (aware && full > 100, answer.len().saturating_sub(9));
    let highest = (192..entries).any(|entry| holds(entry) && !name.entry_names[entry].is_empty());
    vec![
        ("not entries-aware", !aware),
        ("not entries-aware, a name above 100 bytes", !aware && answer.len() > 100),
        ("an empty name of a group", group_name.is_empty()),
        ("several names of groups", name.group_names.len() > 1),
        ("no entry", entries == 0),
        ("no entry's name shown", aware && shown().next().is_none()),
        ("one entry's name shown", aware && shown().count() == 1),
        ("several entries' names shown", aware && shown().count() > 1),
        ("more than 64 entries' names shown", aware && shown().count() > 64),
        ("an entry of the last word shown", aware && highest),
        (
            "an entry of the chunk with an empty name",
            aware && of_chunk.iter().any(|e| e.is_empty()),
        ),
        ("a bit at or above the count of entries", aware && (entries..256).any(holds)),
        ("a full name of 100 bytes", aware && full == 100),
        ("a full name of 101 bytes", aware && full == 101),
        ("cut at byte 91", is_cut && kept == 91),
        ("cut at byte 90", is_cut && kept == 90),
        ("cut at byte 89", is_cut && kept == 89),
        ("cut at byte 88", is_cut && kept == 88),
        ("cut within the group's name", is_cut && group_name.len() > kept),
        ("cut before a separator", is_cut && group_name.len() == kept),
        ("a group's name above 100 bytes is cut", is_cut && group_name.len() > 100),
        ("a hash that isn't of digits", !name.hash.iter().all(u8::is_ascii_alphanumeric)),
    ]
}
