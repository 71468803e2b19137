//! Trees: other load numbers, the way through the exact form, refusals and messages.

mod common;

use std::fmt::Write;

use chunklist::tree::{Shown, TreeBuild, picture};
use common::{Ran, run, samples::path};
use text::{Answer, Build, ChunkList, Options, Question, read_cases, read_replies};

/// What a run comes to that has to be good.
fn good(arguments: &[&str], input: &str) -> String {
    let Ran { answers, messages, status } = run(arguments, input.as_bytes());
    assert_eq!((messages.as_str(), status), ("", Some(0)), "{arguments:?}");
    answers
}

/// What is said of a tree on standard input that comes to no list.
fn message(tree: &str) -> String {
    let Ran { answers, messages, status } = run(&["--tree"], tree.as_bytes());
    assert_eq!((answers.as_str(), status), ("", Some(1)), "{messages}");
    let said = messages.strip_prefix("chunklist: standard input: ");
    said.expect("the source is named").trim_end().to_string()
}

#[test]
fn load_numbers_do_not_matter() {
    let file = path("widgets.tree");
    let list = good(&[&file], "");
    let calls = good(&[&file, "--as-calls"], "");
    let picture = run(&[&file, "--window", "64k"], b"");
    for seed in ["0", "1", "2", "77", "4294967295"] {
        assert_eq!(good(&[&file, "--shuffle", seed], ""), list, "seed {seed}");
        assert_eq!(run(&[&file, "--window", "64k", "--shuffle", seed], b""), picture);
        assert_ne!(good(&[&file, "--as-calls", "--shuffle", seed], ""), calls, "seed {seed}");
    }
}

/// The numbers of a call, by the comments that `--as-calls` writes.
struct Comments<'a>(&'a str);

impl Comments<'_> {
    fn name(&self, what: &str, number: usize) -> &str {
        let start = format!("# {what} {number} ");
        let line = self.0.lines().find_map(|line| line.strip_prefix(&start));
        line.unwrap_or_else(|| panic!("{what} {number} has a comment"))
    }

    /// The list by names that an answer in numbers amounts to, up to the modules in no chunk.
    fn list(&self, build: &Build, list: &ChunkList) -> String {
        let mut text = String::new();
        for chunk in &list.chunks {
            let bits = |entry: &usize| chunk.bits[entry / 64] >> (entry % 64) & 1 == 1;
            let entries = (0..build.entries as usize).filter(bits);
            let entries: Vec<&str> = entries.map(|entry| self.name("entry", entry)).collect();
            let (bare, group) = (chunk.name as usize, chunk.group as usize);
            let aware = build.groups[group].entries_aware == Some(true);
            // None of the sample's names is long enough to be cut.
            let added = if aware { entries.as_slice() } else { &[] };
            let name = [&[self.name("name", bare)], added].concat().join("~");
            let too_large = too_large(chunk.mark, &build.groups[group].options);
            let group = self.name("group", group);
            let (number, size, entries) = (chunk.chunk, chunk.size, entries.join(" "));
            writeln!(
                text,
                "\nchunk {number}: {name}, {size} bytes, group {group}, entries {entries}{too_large}"
            )
            .expect("a string takes all");
            for module in &chunk.modules {
                let (id, size) =
                    (self.name("module", *module as usize), build.modules[*module as usize].size);
                writeln!(text, "  {id} {size}").expect("a string takes all");
            }
        }
        text
    }
}

/// What the list says of a mark; the sample has none of 2, and its maxima are those of groups.
fn too_large(mark: u8, options: &Options) -> String {
    match (mark, options.max_size) {
        (0, _) => String::new(),
        (1, Some(max_size)) => format!(", above its maximum of {max_size}: it has one module"),
        other => panic!("{other:?}"),
    }
}

#[test]
fn the_exact_form_gives_the_same_list() {
    let file = path("widgets.tree");
    let list = good(&[&file], "");
    for seed in ["1", "2", "3"] {
        let calls = good(&[&file, "--as-calls", "--shuffle", seed], "");
        let replies = read_replies(&good(&[], &calls)).expect("an answer");
        let cases = read_cases(&calls).expect("a case");
        let (Question::Chunks(chunks), Ok(Answer::Chunks(answer))) =
            (&cases[0].question, &replies[0].outcome)
        else {
            panic!("a whole build is answered")
        };
        let by_names = Comments(&calls).list(&chunks.build, answer);
        let (_, after_first) = list.split_once('\n').expect("a first line");
        let (chunks_of_list, _) = after_first.split_once("\nin no chunk").expect("modules in none");
        assert_eq!(by_names, chunks_of_list);
        assert_eq!((cases[0].tag.as_str(), replies[0].tag.as_str()), ("widgets", "widgets"));
    }
}

#[test]
fn a_small_tree_from_standard_input() {
    let tree = "entry main app\nmodule app 40 needs lib/a\nmodule lib/a 10 needs lib/b\n\
                module lib/b 20\nmodule theme 30 external\ngroup lib test lib/a name {1}-{2}\n";
    let expected = "tree: 1 chunk, 2 modules, 30 bytes\n\n\
                    chunk 0: lib-a, 30 bytes, group lib, entries main\n  lib/a 10\n  lib/b 20\n\n\
                    in no chunk: 2 modules\n  app 40\n  theme 30, external\n";
    assert_eq!(good(&["--tree"], tree), expected);
    assert_eq!(good(&["--tree", "-"], tree), expected);
    let later = format!("count_on_entry 7\ntree mine\n{tree}");
    let expected = expected.replace("tree: ", "mine: ").replace("chunk 0", "chunk 7");
    assert_eq!(good(&["--tree"], &later), expected);
    assert_eq!(good(&["--tree"], ""), "tree: 0 chunks, 0 modules, 0 bytes\n");
}

#[test]
fn a_chunk_as_large_as_the_window_is_not_above_it() {
    let tree = b"module a 100\ngroup g\n";
    let fits = run(&["--tree", "--window", "100"], tree);
    assert_eq!((fits.status, fits.messages.as_str()), (Some(0), ""));
    assert!(fits.answers.ends_with("\nNo chunk is above the window.\n"), "{}", fits.answers);
    let above = run(&["--tree", "--window", "99"], tree);
    assert_eq!((above.status, above.messages.as_str()), (Some(3), ""));
    let last = "\n>> ABOVE the window: 1 of 1 chunk, chunk 0 by 1 bytes\n";
    assert!(above.answers.ends_with(last), "{}", above.answers);
    assert!(above.answers.contains("\n>>     0  g"), "{}", above.answers);
}

#[test]
fn only_what_is_above_has_a_colour() {
    let tree = "module a 9\nmodule b 10\ngroup g name {1}\n";
    let build = TreeBuild::read(tree, "", None).expect("a tree");
    let list = build.ask().outcome.expect("the library accepts it");
    let shown = Shown::new(&build, &list);
    let (plain, coloured) = (picture(&shown, 9, false), picture(&shown, 9, true));
    let lines: Vec<&str> = coloured.lines().filter(|line| line.contains('\x1b')).collect();
    assert_eq!(lines.len(), 1, "{coloured}");
    assert!(lines[0].starts_with("\x1b[1;31m>>     1  g") && lines[0].ends_with("\x1b[0m"));
    assert_eq!(coloured.replace("\x1b[1;31m", "").replace("\x1b[0m", ""), plain);
}

#[test]
fn an_error_has_its_source_and_line() {
    assert_eq!(
        message("module a 1\nmodule b 2 need a\n"),
        "line 2: needs, entries, tags, shares, external, excluded or assigned, or the next statement, \
         is expected, not `need`; is `needs` meant?"
    );
    assert_eq!(message("module a 1\n\n needs c\n"), "line 3: there is no module with the id `c`");
    let Ran { messages, .. } = run(&["--tree"], b"module a 1\nmodule \xff 1\n");
    assert_eq!(messages, "chunklist: standard input: line 2: the text isn't UTF-8\n");
    let Ran { messages, status, .. } = run(&["no-such.tree"], b"");
    assert!(messages.starts_with("chunklist: no-such.tree: "), "{messages}");
    assert_eq!(status, Some(1));
}

#[test]
fn refusals_are_the_librarys_with_what_they_mean_and_where() {
    let refused =
        |number: u32, rest: &str| format!("the library refuses the build with {number}: {rest}");
    assert_eq!(
        message("module a 1\nmodule b 2\nmodule a 3\nmodule a 4 external\n"),
        refused(4, "two normal included modules have the same stable id\n  `a` in lines 1, 3")
    );
    assert_eq!(
        message(&format!("module a 1\nmodule {} 2\n", "x".repeat(1_025))),
        refused(
            3,
            "an offset falls or passes the end, or an id has more than 1,024 bytes\n  \
             line 2: an id of 1025 bytes"
        )
    );
    assert_eq!(
        message("module a 9007199254740992\nmodule b 1\n"),
        refused(
            6,
            "the sizes add to more than 2^53\n  they add to 9007199254740993\n  \
             the largest is `a` in line 1"
        )
    );
    assert_eq!(
        message("count_on_entry 65536\n"),
        refused(11, "the chunk count on entry is above 65,535\n  count_on_entry is 65536")
    );
    let groups: String = (0..65).map(|group| format!("group g{group}\n")).collect();
    assert_eq!(
        message(&groups),
        refused(1, "a count is above its limit\n  65 groups, at most 64 (line 65)")
    );
    let entries: String = (0..257).map(|entry| format!("entry e{entry} a\n")).collect();
    assert_eq!(
        message(&format!("module a 1\n{entries}")),
        refused(1, "a count is above its limit\n  257 entries, at most 256 (line 258)")
    );
}

#[test]
fn bad_usage_of_trees_has_its_status() {
    let Ran { messages, status, .. } = run(&["a.txt", "--window", "64k"], b"");
    let expected = "chunklist: --window goes with a file that ends in .tree, or with --tree; \
                    --help says what there is\n";
    assert_eq!((messages.as_str(), status), (expected, Some(2)));
}

#[test]
fn a_page_that_cannot_be_written_is_named() {
    let Ran { messages, status, .. } = run(&["--tree", "--html", "no-such-folder/page.html"], b"");
    assert!(
        messages.starts_with("chunklist: no-such-folder/page.html: the page can't be written: ")
    );
    assert_eq!(status, Some(1));
}
