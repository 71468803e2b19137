//! Texts are read and written back as they stood.

use text::{read_cases, read_replies, tables};

/// One case of each call, with every line that a case can have.
const CASES: &str = "\
sim empty . 61ff
filter limits 8000000000000001 - 7ff0000000000000 3 3 9007199254740992 4294967295
with offsets 0 1 1
with len sizes 3
with count n 18446744073709551615
cut damaged 2 0000000000000000 fff0000000000000 61 1 . 0
with areas 1 0 7
merge joins 2 256 4024000000000000 5 1 0 0 8000000000000000 100 2 0 0 0
merge absent 0 0 -
with len dep_next 4
with areas 3 2
capture chain 3 2 1 0 3 7 3 1 2 0 1 0 2 0
name plain 1 0 0 0 0 0 0 0 . 61
with name_offsets 1 1 3
with entry_offsets 4294967295 0
with len name_offsets 2
with len entry_offsets 3
with count k 65536
with count e 257
with areas 99
name damaged 2 1 4294967295 1 1 0 0 8000000000000000 3031ff 61 c3a9 .
chunks whole 2 1 2 1 1 7
o - 4044000000000000 - - 2 0
m 3 40 3 0 ff 1 0 0 0 1 617070
m 255 10 1 9 0 2 0 0 0 0 .
d 1 0
g 4024000000000000 - - - - 1 8000000000000000 5 1 4024000000000000
a 2 0
offsets 0 1 3
len flags 0
len answers 3
len threshold 0
count g 65
areas 2 2 2 70
records 2 1 2 2 7 3
end
";

/// One reply of each form.
const REPLIES: &str = "\
sim empty 0
filter limits 1
cut damaged refused 1
cut single none fewer-than-two
cut several none not-allowed
cut some 2 403e000000000000 403e000000000000 30 30
merge joins 1:0:0:0:0:0 1:105:3:0:0:8000000000000000
merge absent
capture chain 100
name plain 1 61
name nothing 0 .
name damaged refused 1
chunks whole 3
c 7 0 0 4044000000000000 40 1 0 0 0 0 0
c 8 0 0 4024000000000000 10 1 0 0 0 1 1
c 9 1 0 4034000000000000 20 1 0 0 0 2 3 2
m 8 9 10 10
end
chunks refused refused 13
";

#[test]
fn cases_come_back_as_they_stood() {
    let cases = read_cases(CASES).expect("the cases can be read");
    assert_eq!(cases.iter().map(ToString::to_string).collect::<String>(), CASES);
}

#[test]
fn replies_come_back_as_they_stood() {
    let replies = read_replies(REPLIES).expect("the replies can be read");
    assert_eq!(replies.iter().map(ToString::to_string).collect::<String>(), REPLIES);
}

#[test]
fn empty_lines_and_comments_stand_between_cases() {
    let cases = read_cases("\n# a comment\n  \nsim a . .\n\nwith count k 3\n# so\nmerge b 0 1 -\n");
    assert_eq!(cases.map(|cases| cases.len()), Ok(2));
}

#[test]
fn damage_changes_the_tables_and_not_the_text() {
    let cases = read_cases(CASES).expect("the cases can be read");
    let text::Question::Chunks(chunks) = &cases[8].question else {
        panic!("the last case is a build");
    };
    let tables = tables::of_chunks(chunks);
    assert_eq!((tables.n, tables.g, tables.d), (2, 65, 1));
    assert_eq!(tables.flags, []);
    assert_eq!(tables.answers, [2, 0, 0]);
    assert_eq!(tables.offsets, [0, 1, 3]);
    assert_eq!(tables.dep_module, [u32::MAX, 1]);
    assert_eq!(tables.group_lengths, [1, 1, 1, 1, 1, 1, 1, 1, 0]);
    assert_eq!(tables.areas, [2, 2, 2, 1, 2, 2, 7, 3, 70]);
}

#[test]
fn damage_changes_the_tables_of_names() {
    let cases = read_cases(CASES).expect("the cases can be read");
    let text::Question::Name(name) = &cases[7].question else {
        panic!("the case before the last is a name");
    };
    let tables = tables::of_name(name);
    assert_eq!((tables.k, tables.e, tables.number, tables.area), (65_536, 257, u32::MAX, 99));
    assert_eq!((tables.group_names, tables.group_offsets), (vec![0x61, 0xc3, 0xa9], vec![1, 1]));
    assert_eq!((tables.entry_names, tables.entry_offsets), (vec![], vec![u32::MAX, 0, 0]));
    assert_eq!(tables.hash, [0x30, 0x31, 0xff]);
}

#[test]
fn offsets_that_leave_bytes_out_make_other_names() {
    let text =
        "with name_offsets 1 2 3\nwith entry_offsets 0 0\nname a 2 1 0 1 1 0 0 0 . 6162 63 64\n";
    let cases = read_cases(text).expect("the case can be read");
    let text::Question::Name(name) = tables::effective(&cases[0].question) else {
        panic!("it stays a name");
    };
    assert_eq!(name.group_names, [b"b", b"c"]);
    assert_eq!(name.entry_names, [b""]);
    assert!(name.damage.is_none());
}
