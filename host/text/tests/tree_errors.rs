//! Each kind of error of a tree names its line and what was expected there.

use text::tree::read_tree;

/// The message that reading and numbering a tree comes to.
fn message(text: &str) -> String {
    let numbered = read_tree(text).and_then(|tree| tree.numbered(None));
    numbered.expect_err("the tree is bad").to_string()
}

/// Two modules, a, which is an entry, and b; what follows stands in line 5.
const GOOD: &str = "entry main a\nmodule a 1\nmodule b 2\n\n";

/// A line after the good ones, and what is said of it.
fn fifth(line: &str, expected: &str) {
    assert_eq!(message(&format!("{GOOD}{line}\n")), format!("line 5: {expected}"), "{line}");
}

#[test]
fn what_stands_before_is_good() {
    let tree = read_tree(GOOD).expect("a tree");
    assert_eq!(tree.numbered(None).expect("numbers").build.modules.len(), 2);
}

#[test]
fn a_line_begins_with_a_statement() {
    let statements = "a line with tree, order, count_on_entry, entry, module, options or group";
    assert_eq!(
        message("# a tree\nmodul a 1\n"),
        format!("line 2: {statements} is expected, not `modul`; is `module` meant?")
    );
    assert_eq!(
        message("tree x\n\"module\" a 1\n"),
        format!("line 2: {statements} is expected, not `module`; is `module` meant?")
    );
    let here = "is expected below a module, a group or options, not here";
    assert_eq!(message("entry main a\nneeds b\n"), format!("line 2: `needs` {here}"));
    assert_eq!(message("min_size 3\n"), format!("line 1: `min_size` {here}"));
    assert_eq!(
        message("order lines twice\n"),
        format!("line 1: {statements} is expected, not `twice`")
    );
}

#[test]
fn words_and_quotes() {
    fifth("module \"a b 1", "a closing `\"` is expected before the end of the line");
    fifth("module \"a\\b\" 1", "`\\\"` or `\\\\` is expected after a `\\` in quotes");
    fifth("module \"a\"b 1", "a blank is expected after a closing `\"`, not `b`");
}

#[test]
fn statements_have_their_words() {
    fifth("tree", "the line ends where a title of one word is expected");
    fifth("tree \"two words\"", "a title of one word is expected, not `two words`");
    fifth("order", "the line ends where `lines` or `entries` is expected");
    fifth("order loads", "`lines` or `entries` is expected, not `loads`");
    fifth("entry", "the line ends where the entry's name is expected");
    fifth("entry other", "the line ends where the id of the entry's module is expected");
    fifth("module", "the line ends where the module's id is expected");
    fifth("group", "the line ends where the group's label is expected");
    let number = "a whole number from 0 to 18446744073709551615 is expected";
    fifth("count_on_entry -1", &format!("{number}, not `-1`"));
}

#[test]
fn sizes_limits_and_numbers() {
    let size = "a size like 10, 64k or 2m, below 2^64";
    fifth("module c", &format!("the line ends where {size} is expected"));
    for bad in ["needs", "1.5k", "12kb", "18446744073709551616"] {
        fifth(&format!("module c {bad}"), &format!("{size} is expected, not `{bad}`"));
    }
    let limit = "a limit like 10, 64k or 1.5m";
    fifth("options max_size nan", &format!("{limit} is expected, not `nan`"));
    fifth("group g min_size", &format!("the line ends where {limit} is expected"));
    fifth("group g min_size = 10", &format!("{limit} is expected, not `=`"));
    let number = "a whole number from 0 to 4294967295";
    fifth("group g priority high", &format!("{number} is expected, not `high`"));
    fifth("group g min_share_count 1.5", &format!("{number} is expected, not `1.5`"));
    fifth("module c 1 shares 4294967296", &format!("{number} is expected, not `4294967296`"));
    fifth("group g entries_aware yes", "`true` or `false` is expected, not `yes`");
}

#[test]
fn clauses_of_a_module() {
    let clauses =
        "needs, entries, tags, shares, external, excluded or assigned, or the next statement,";
    fifth("module c 1 need a", &format!("{clauses} is expected, not `need`; is `needs` meant?"));
    fifth("module c 1 needs", "the line ends where a module's id is expected");
    fifth("module c 1 needs tags x", "a module's id is expected, not `tags`");
    fifth("module c 1 tags", "the line ends where a tag is expected");
    fifth(
        "module c 1 entries",
        "the line ends where an entry's name, or `-` for none, is expected",
    );
    fifth("module c 1 shares 2 shares 3", "`shares` of this module is said again; line 5 has it");
}

#[test]
fn clauses_of_a_group_and_of_the_build() {
    let clauses = "test, name or an option of a group, or the next statement,";
    fifth(
        "group g min_sise 1",
        &format!("{clauses} is expected, not `min_sise`; is `min_size` meant?"),
    );
    fifth("group g test", "the line ends where a pattern over ids is expected");
    fifth("group g name {x}", "a name, with braces only as in {1} or {-1}, is expected, not `{x}`");
    let option = "an option of the build, or the next statement, is expected";
    fifth("options priority 1", &format!("{option}, not `priority`"));
    fifth("options max_sise 1", &format!("{option}, not `max_sise`; is `max_size` meant?"));
    assert_eq!(
        message("group g\n min_size 1\n priority 2\n min_size 3\n"),
        "line 4: `min_size` is said again; line 2 has it"
    );
}

#[test]
fn what_can_be_said_once() {
    assert_eq!(message("tree a\ntree b\n"), "line 2: `tree` is said again; line 1 has it");
    assert_eq!(message("options\noptions\n"), "line 2: `options` is said again; line 1 has it");
    assert_eq!(
        message("group g\n\ngroup g\n"),
        "line 3: the group `g` is said again; line 1 has it"
    );
    fifth("entry main b", "the entry `main` is said again; line 1 has it");
}

#[test]
fn names_of_what_is_not_there() {
    fifth("module c 1 needs x/y", "there is no module with the id `x/y`");
    assert_eq!(
        message("module lib/button.js 1\nmodule app 1\n needs lib/buton.js\n"),
        "line 3: there is no module with the id `lib/buton.js`; is `lib/button.js` meant?"
    );
    fifth("entry other x", "there is no module with the id `x`");
    fifth("module c 1 entries mian", "there is no entry with the name `mian`; is `main` meant?");
    fifth("module c 1 entries other", "there is no entry with the name `other`");
}

#[test]
fn a_group_asks_for_a_tag_that_is_there() {
    assert_eq!(
        message("module a 1 tags late\ngroup g\n tags late\ngroup h tags laet\n"),
        "line 4: there is no module with the tag `laet`; is `late` meant?"
    );
}

#[test]
fn there_are_as_many_tags_as_bits() {
    let tags: String = (0..64).map(|tag| format!(" t{tag}")).collect();
    let good = format!("{GOOD}module c 1 tags{tags}\n");
    assert!(read_tree(&good).and_then(|tree| tree.numbered(None)).is_ok());
    assert_eq!(
        message(&format!("{good}module d 1 tags t1 more\n")),
        "line 6: at most 64 different tags are expected; this is one more"
    );
}
