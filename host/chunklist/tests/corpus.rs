//! The library gives the recorded answers again: the crate's on leaves and whole builds, the papers'
//! refusals and limits.

use std::{fs, path::PathBuf};

use chunklist::ask;
use text::{Case, Reply, read_cases, read_replies};

/// A file of the recorded corpus.
fn recorded(name: &str) -> String {
    let folder = PathBuf::from(env!("CARGO_MANIFEST_DIR")).join("../corpus");
    fs::read_to_string(folder.join(name)).expect("the corpus can be read")
}

/// Puts every case of a file to the library; each answer has to be the recorded one. How many
/// there are.
fn replay(name: &str) -> usize {
    let cases = read_cases(&recorded(&format!("{name}.txt"))).expect("cases");
    let replies = read_replies(&recorded(&format!("{name}.answers.txt"))).expect("answers");
    assert_eq!(cases.len(), replies.len(), "{name} has an answer for each case");
    for (case, reply) in cases.iter().zip(replies) {
        assert_eq!(answered(case), reply, "{name}");
    }
    cases.len()
}

/// What the library replies to a case, with what its areas show.
fn answered(case: &Case) -> Reply {
    let asked = ask(&case.question);
    let (tag, call) = (case.tag.clone(), case.question.call());
    Reply { tag, call, outcome: asked.outcome, warnings: asked.warnings }
}

#[test]
fn leaves_are_answered_as_the_crate_does() {
    let same = replay("leaves");
    assert!(same >= 400, "{same} replayed");
}

#[test]
fn damaged_calls_are_refused_by_the_papers() {
    let same = replay("refusals");
    assert!(same >= 456, "{same} replayed");
    println!("{same} refusals replayed");
}

#[test]
fn leaf_calls_at_the_limits_are_answered_by_the_papers() {
    let same = replay("leaf-limits");
    assert!(same >= 354, "{same} replayed");
}

#[test]
fn builds_at_the_limits_are_answered_by_document_01() {
    let same = replay("limits");
    assert!(same >= 236, "{same} replayed");
}

#[test]
fn whole_builds_are_answered_as_the_crate_does() {
    let same = replay("builds");
    assert!(same >= 318, "{same} replayed");
    println!("{same} whole builds replayed");
}
