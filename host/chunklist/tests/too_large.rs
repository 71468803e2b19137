//! Chunks above their maximum: list, picture and page say why, by the library's mark.

mod common;

use chunklist::tree::{NamedList, Shown, TreeBuild, list, page, picture};
use common::samples::content;

/// The words of the two reasons, where the maximum is 5 and 6 and the least size 6.
const ONE_MODULE: &str = "above its maximum of 5: it has one module";
const NO_CUT: &str =
    "above its maximum of 6: no cut of its modules leaves min_size 6 on both sides";

/// A tree with its list, which the library has to accept and the host's reading to come to.
fn asked(tree: &str) -> (TreeBuild, NamedList) {
    let build = TreeBuild::read(tree, "large", None).expect("a tree");
    let answer = build.ask();
    assert_eq!(answer.warnings, Vec::<String>::new());
    let list = answer.outcome.expect("the library accepts it");
    assert!(build.read_by_host(&list).agrees);
    (build, list)
}

/// What is said of each chunk of a tree.
fn said(tree: &str) -> Vec<Option<String>> {
    let (build, list) = asked(tree);
    Shown::new(&build, &list).chunks.into_iter().map(|chunk| chunk.too_large).collect()
}

#[test]
fn a_chunk_within_its_maximum_or_without_one_says_nothing() {
    assert_eq!(said("module a 5\ngroup g max_size 5\n"), [None]);
    assert_eq!(said("module a 5\nmodule b 5\ngroup g max_size 10 min_size 6\n"), [None]);
    assert_eq!(said("module a 5\ngroup g\n"), [None]);
}

#[test]
fn one_module_and_no_cut_are_told_apart() {
    assert_eq!(said("module a 6\ngroup g max_size 5\n"), [Some(ONE_MODULE.into())]);
    let two = "module a 5\nmodule b 5\n";
    assert_eq!(said(&format!("{two}group g max_size 6 min_size 6\n")), [Some(NO_CUT.into())]);
    let cut = said(&format!("{two}group g max_size 4 min_size 5\n"));
    let each = Some("above its maximum of 4: it has one module".to_string());
    assert_eq!(cut, [each.clone(), each]);
}

#[test]
fn limits_of_the_build_are_named_where_the_group_has_none() {
    let build = "module a 5\nmodule b 5\noptions max_size 6 min_size 6\n";
    assert_eq!(said(&format!("{build}group g\n")), [Some(NO_CUT.into())]);
    let own = said(&format!("{build}group g min_size 9.5\n"));
    assert_eq!(own, [Some(NO_CUT.replace("min_size 6", "min_size 9.5"))]);
    assert_eq!(said(&format!("{build}group g max_size 10\n")), [None]);
}

#[test]
fn a_piece_says_it_of_its_own_modules() {
    let pieces = said("module a 9\nmodule b 1\ngroup g max_size 5\n");
    assert_eq!(pieces, [None, Some(ONE_MODULE.into())]);
}

/// A chunk of 6 bytes above its maximum, one of 10 of which no cut is allowed, and one within.
const THREE: &str = "module a/1 6\nmodule b/1 5\nmodule b/2 5\nmodule c/1 5\n\
    group a test a/* max_size 5\ngroup b test b/* max_size 6 min_size 6\ngroup c test c/* max_size 5\n";

#[test]
fn the_list_says_it_behind_the_chunk() {
    let (build, named) = asked(THREE);
    let text = list(&Shown::new(&build, &named));
    let chunks: Vec<&str> = text.lines().filter(|line| line.starts_with("chunk ")).collect();
    assert_eq!(
        chunks,
        [
            format!("chunk 0: a, 6 bytes, group a, entries none, {ONE_MODULE}"),
            format!("chunk 1: b, 10 bytes, group b, entries none, {NO_CUT}"),
            "chunk 2: c, 5 bytes, group c, entries none".into(),
        ]
    );
}

#[test]
fn the_picture_says_it_below_the_bar_whatever_the_window() {
    let (build, named) = asked(THREE);
    let shown = Shown::new(&build, &named);
    for (window, colours) in [(3, false), (3, true), (100, true)] {
        let text = picture(&shown, window, colours);
        let lines: Vec<&str> = text.lines().collect();
        let at = |words: &str| lines.iter().position(|line| line.trim_start() == words);
        let [one, none] = [ONE_MODULE, NO_CUT].map(|words| at(words).expect("a line of its own"));
        assert!(lines[one - 1].contains("  0  a "), "{text}");
        assert!(lines[none - 1].contains("  1  b "), "{text}");
        assert_eq!(text.matches("its maximum").count(), 2, "{text}");
        // It begins where the names do.
        let names = lines.iter().find_map(|line| line.find("name ")).expect("a heading");
        assert_eq!(lines[one].find("above"), Some(names), "{text}");
    }
}

#[test]
fn the_page_says_it_as_the_librarys_answer() {
    let (build, named) = asked(THREE);
    let html = page(&build, &named, &build.read_by_host(&named), None);
    let chunks: Vec<&str> = html.split("<article ").skip(1).collect();
    for (chunk, words) in chunks.iter().zip([Some(ONE_MODULE), Some(NO_CUT), None]) {
        // What the host reads stands further down, and is marked.
        let (answered, read) = chunk.split_once("not proved").expect("the host's reading");
        let lines = words.map(|words| format!("<p class=\"too-large\">{words}</p>"));
        assert!(lines.is_none_or(|line| answered.contains(&line)), "{answered}");
        assert_eq!(answered.matches("its maximum").count(), usize::from(words.is_some()));
        assert!(!read.contains("its maximum"), "{read}");
    }
    assert_eq!(chunks.len(), 3);
}

#[test]
fn the_sample_shows_both() {
    let (build, named) = asked(&content("large.tree"));
    let html = page(&build, &named, &build.read_by_host(&named), Some(65_536));
    assert!(html.contains("above its maximum of 65536: it has one module</p>"));
    let none =
        "above its maximum of 65536: no cut of its modules leaves min_size 40960 on both sides";
    assert!(html.contains(none));
    assert_eq!(html.matches("class=\"too-large\"").count(), 2);
}
