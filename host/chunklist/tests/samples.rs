//! The samples of the repository get the answers that stand beside them.

mod common;

use common::{
    Ran, run,
    samples::{content, path},
};

/// What a run has to come to.
fn expected(name: &str, status: i32) -> Ran {
    Ran { answers: content(name), messages: String::new(), status: Some(status) }
}

#[test]
fn leaves_from_a_file() {
    assert_eq!(run(&[&path("leaves.txt")], b""), expected("leaves.expected", 0));
}

#[test]
fn leaves_from_standard_input() {
    let cases = content("leaves.txt").into_bytes();
    assert_eq!(run(&[], &cases), expected("leaves.expected", 0));
    assert_eq!(run(&["-"], &cases), expected("leaves.expected", 0));
}

#[test]
fn whole_builds() {
    assert_eq!(run(&[&path("chunks.txt")], b""), expected("chunks.expected", 0));
}

#[test]
fn a_tree_as_a_list() {
    assert_eq!(run(&[&path("widgets.tree")], b""), expected("widgets.expected", 0));
}

#[test]
fn chunks_that_are_too_large() {
    let (file, large) = (path("large.tree"), expected("large.expected", 0));
    assert_eq!(run(&[&file], b""), large);
    assert_eq!(run(&[&file, "--shuffle", "3"], b""), large);
    let against_window = run(&[&file, "--window", "64k"], b"");
    assert_eq!(against_window, expected("large.window.expected", 3));
}

/// One chunk is above the window, which has a status of its own.
#[test]
fn a_tree_against_a_window() {
    let ran = run(&[&path("widgets.tree"), "--window", "64k"], b"");
    assert_eq!(ran, expected("widgets.window.expected", 3));
}
