//! The names of a tree's chunks: what is shown is the library's answer, made from the names that the
//! person wrote and the host's hash of the full name.

mod common;

use chunklist::tree::{NamedList, Refused, Shown, TreeBuild, list, page, picture, refused};
use common::{Ran, run, samples::content};
use gentropi::{ChunkToName, IdBuf, chunk_name_to_vec};

/// A tree with its list, which the library has to accept.
fn asked(tree: &str) -> (TreeBuild, NamedList) {
    let build = TreeBuild::read(tree, "names", None).expect("a tree");
    let answer = build.ask();
    assert_eq!(answer.warnings, Vec::<String>::new());
    let list = answer.outcome.expect("the library accepts it");
    (build, list)
}

/// A tree of one module, which all entries reach, in an entries-aware group with this name.
fn one_module(name: &str, entries: &[&str]) -> String {
    let entry = |entry: &&str| format!("entry \"{entry}\" m\n");
    let entries: String = entries.iter().map(entry).collect();
    format!("{entries}module m 5\ngroup g name \"{name}\" entries_aware true\n")
}

/// The name of a tree's only chunk.
fn only_name(tree: &str) -> String {
    let (build, list) = asked(tree);
    let chunks = Shown::new(&build, &list).chunks;
    assert_eq!(chunks.len(), 1);
    chunks[0].name.clone()
}

/// Two chunks whose full names begin with the same 91 bytes.
const ALIKE: &str = "
    entry administration-of-users a
    entry catalogue-of-spare-parts a
    entry delivery-and-returns a
    entry guide-for-new-customers a
    entry shop a
    module a 5 entries administration-of-users catalogue-of-spare-parts delivery-and-returns guide-for-new-customers
    module b 6 entries administration-of-users catalogue-of-spare-parts delivery-and-returns guide-for-new-customers shop
    group widgets entries_aware true
";

/// What the library answers if it is asked apart from the host's own tables. The hash is the end of
/// the name that is shown, which only a cut name has.
fn answered_apart(build: &TreeBuild, list: &NamedList, place: usize) -> String {
    let chunk = &list.chunks[place];
    let end = list.names[place].as_bytes().last_chunk().filter(|end| end.is_ascii());
    let hash: [u8; 8] = *end.unwrap_or(b"--------");
    let group = &build.numbered.build.groups[chunk.group as usize];
    let entries: IdBuf = build.tree.entries.iter().map(|entry| entry.name.as_bytes()).collect();
    let groups: IdBuf = build.numbered.names.iter().map(|name| name.as_bytes()).collect();
    let question = ChunkToName {
        group_names: groups.as_ids(),
        entry_names: entries.as_ids(),
        number: chunk.name,
        entries_aware: group.entries_aware == Some(true),
        bits: chunk.bits,
        hash: &hash,
    };
    String::from_utf8(chunk_name_to_vec(&question).expect("a name")).expect("UTF-8")
}

#[test]
fn the_names_shown_are_the_librarys() {
    for tree in [content("widgets.tree"), ALIKE.into(), one_module("näh-é", &["a", "b"])] {
        let (build, named) = asked(&tree);
        let shown = Shown::new(&build, &named);
        let text = list(&shown);
        assert_eq!(shown.chunks.len(), named.names.len());
        for (place, chunk) in shown.chunks.iter().enumerate() {
            assert_eq!(chunk.name, answered_apart(&build, &named, place));
            let line = format!("\nchunk {}: {}, {} bytes", chunk.number, chunk.name, chunk.size);
            assert!(text.contains(&line), "{line}");
        }
    }
}

#[test]
fn another_answer_is_shown_as_it_is() {
    let (build, mut named) = asked(&content("widgets.tree"));
    named.names[9] = "what-the-library-says".into();
    let shown = Shown::new(&build, &named);
    let html = page(&build, &named, &build.read_by_host(&named), None);
    assert!(list(&shown).contains("\nchunk 9: what-the-library-says, "));
    assert!(picture(&shown, 65_536, false).contains("  9  widgets  what-the-library-says  "));
    assert!(html.contains("<h2>9 <span class=\"name\">what-the-library-says</span>"));
}

#[test]
fn above_100_bytes_a_name_is_cut_and_ends_in_the_hash() {
    let (whole, longer) = ("e".repeat(92), "e".repeat(93));
    assert_eq!(only_name(&one_module("widgets", &[&whole])), format!("widgets~{whole}"));
    let cut = format!("widgets~{}~bvh81oyv", "e".repeat(83));
    assert_eq!(only_name(&one_module("widgets", &[&longer])), cut);
    assert_eq!(cut.len(), 100);
}

/// The hashes are those of another program for FNV-1a.
#[test]
fn a_cut_divides_no_character() {
    for (characters, letters, kept, hash) in [
        ('é', 89, 91, "5aft6wxs"),
        ('é', 90, 90, "36kdd1vs"),
        ('€', 88, 91, "7gmyv9so"),
        ('€', 89, 89, "s9xi6ctc"),
        ('€', 90, 90, "x2y14afc"),
        ('𝄞', 87, 91, "w07xffns"),
        ('𝄞', 88, 88, "05jwbcc0"),
        ('𝄞', 90, 90, "aw64rwrk"),
    ] {
        let entry = "x".repeat(letters - 2) + &characters.to_string().repeat(6);
        let name = only_name(&one_module("g", &[&entry]));
        assert_eq!(name, format!("{}~{hash}", &format!("g~{entry}")[..kept]), "{characters}");
    }
}

#[test]
fn chunks_that_differ_past_the_cut_have_names_of_their_own() {
    let (_, named) = asked(ALIKE);
    let [one, other] = named.names.as_slice() else { panic!("{:?}", named.names) };
    assert_eq!((one.len(), other.len()), (100, 100));
    assert_eq!(one[..92], other[..92]);
    assert_ne!(one[92..], other[92..]);
}

#[test]
fn other_chunks_keep_the_groups_name_at_any_length() {
    let name = "a-name-that-goes-on/".repeat(20);
    let aware = one_module(&name, &["main"]);
    assert_eq!(only_name(&aware.replace("entries_aware true", "entries_aware false")), name);
    assert_eq!(only_name(&aware.replace("entries_aware true", "")), name);
    assert_eq!(only_name(&aware).len(), 100);
}

#[test]
fn an_entry_without_a_name_is_passed_over() {
    assert_eq!(only_name(&one_module("g", &["a", "", "b"])), "g~a~b");
    assert_eq!(only_name(&one_module("g", &[""])), "g");
    assert_eq!(only_name(&one_module("g", &[])), "g");
    let (a, b) = ("a".repeat(50), "b".repeat(50));
    let cut = format!("g~{a}~{}~bndijh5o", &b[..38]);
    assert_eq!(only_name(&one_module("g", &[&a, "", &b])), cut);
}

#[test]
fn the_hash_is_of_all_entries() {
    let entries: Vec<String> = (0..70).map(|entry| format!("e{entry:02}")).collect();
    let entries: Vec<&str> = entries.iter().map(String::as_str).collect();
    let cut = format!("g~{}~e~46dlyh7x", entries[..22].join("~"));
    assert_eq!(only_name(&one_module("g", &entries)), cut);
}

#[test]
fn a_long_name_has_a_line_to_itself_in_the_picture() {
    let tree = format!("{ALIKE}module c 7\ngroup short test c priority 1\n");
    let (build, named) = asked(&tree);
    let text = picture(&Shown::new(&build, &named), 10, false);
    let lines: Vec<&str> = text.lines().collect();
    assert!(lines[2].starts_with("   chunk  group    name   bytes  window"), "{text}");
    assert!(lines[3].starts_with("       0  short    short      7     70%  |"), "{text}");
    assert_eq!(lines[4], format!("       1  widgets  {}", named.names[1]));
    assert!(lines[5].starts_with(&format!("{:26}    5     50%  |", "")), "{text}");
}

#[test]
fn a_refused_name_is_told_with_what_it_means_and_where() {
    let tree = "module a/b 1\nmodule c/d 2\ngroup g name {1}\n";
    let mut build = TreeBuild::read(tree, "", None).expect("a tree");
    // No text leads to such names: the host would have to number them wrongly.
    build.numbered.names.swap(0, 1);
    let answer = build.ask();
    assert_eq!(answer.warnings, Vec::<String>::new());
    let outcome = answer.outcome.expect_err("names that fall");
    assert_eq!(outcome, Refused::Name { chunk: 0, number: 15 });
    assert_eq!(
        refused(&build, outcome),
        "the library refuses the name of chunk 0 with 15: the names of groups don't strictly ascend \
         in byte order\n  `c` before `a`"
    );
}

#[test]
fn the_program_shows_a_cut_name() {
    let entry = "x".repeat(88) + &"é".repeat(6);
    let tree = one_module("g", &[&entry]);
    let Ran { answers, messages, status } = run(&["--tree"], tree.as_bytes());
    assert_eq!((messages.as_str(), status), ("", Some(0)));
    let first = format!("\nchunk 0: g~{}~36kdd1vs, 5 bytes, group g, ", "x".repeat(88));
    assert!(answers.contains(&first), "{answers}");
}
