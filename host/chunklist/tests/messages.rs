//! What the program says beside the answers, and its exit status.

mod common;

use common::{Ran, run};

/// A build without modules.
const BUILD: &str = "chunks b 0 0 0 0 0 0\no - - - - - -\nend\n";

/// What a run over standard input comes to.
fn ran(input: &str, answers: &str, messages: &str, status: i32) {
    let expected = Ran { answers: answers.into(), messages: messages.into(), status: Some(status) };
    assert_eq!(run(&[], input.as_bytes()), expected);
}

#[test]
fn a_bad_line_is_named_and_ends_the_text() {
    ran(
        "sim a . .\n\n# none\nsim b 6 .\nsim c . .\n",
        "sim a 0\n",
        "chunklist: standard input: line 4: the first ID is neither `.` nor hexadecimal pairs: `6`\n",
        1,
    );
}

#[test]
fn a_build_is_answered_among_other_calls() {
    let answer = "chunks b 0\nm\nend\n";
    ran(
        &format!("sim a . .\n{BUILD}\n{BUILD}sim c 61 61\n"),
        &format!("sim a 0\n{answer}{answer}sim c 10\n"),
        "",
        0,
    );
}

#[test]
fn a_refusal_is_an_answer() {
    ran("filter a 0 - - - 0 9007199254740993 0\n", "filter a refused 6\n", "", 0);
}

#[test]
fn nothing_is_asked() {
    ran("", "", "", 0);
    ran("# only a comment\n\n", "", "", 0);
}

#[test]
fn what_stands_before_a_line_that_is_not_utf_8_is_answered() {
    let Ran { answers, messages, status } = run(&[], b"sim a . .\nsim \xff . .\nsim c . .\n");
    assert_eq!(messages, "chunklist: standard input: line 2: the text isn't UTF-8\n");
    assert_eq!((answers.as_str(), status), ("sim a 0\n", Some(1)));
}

#[test]
fn a_long_word_is_shortened_and_escape_codes_are_escaped() {
    let long = format!("\u{1b}[2J{}", "x".repeat(10 << 20));
    let Ran { answers, messages, status } = run(&[], format!("sim a . .\n{long}\n").as_bytes());
    assert!(messages.starts_with("chunklist: standard input: line 2: unknown call `\\u{1b}[2Jx"));
    assert!(messages.ends_with("... (10485764 bytes)`\n") && messages.len() < 200, "{messages}");
    assert_eq!((answers.as_str(), status), ("sim a 0\n", Some(1)));
}

#[test]
fn names_and_options_are_escaped() {
    let file = run(&["no\u{1b}[31m-such-file"], b"").messages;
    assert!(file.starts_with("chunklist: no\\u{1b}[31m-such-file: "), "{file}");
    let option = run(&["--\u{1b}[31m"], b"").messages;
    assert!(option.starts_with("chunklist: there is no option --\\u{1b}[31m;"), "{option}");
}

#[test]
fn a_file_that_is_not_there_is_named() {
    let Ran { answers, messages, status } = run(&["no-such-file"], b"");
    assert!(messages.starts_with("chunklist: no-such-file: "), "{messages}");
    assert_eq!((answers.as_str(), status), ("", Some(1)));
}

#[test]
fn help_is_printed() {
    let Ran { answers, messages, status } = run(&["--help"], b"");
    assert!(answers.starts_with("chunklist: "), "{answers}");
    assert_eq!((messages.as_str(), status), ("", Some(0)));
}

#[test]
fn bad_usage_has_its_own_status() {
    let Ran { answers, messages, status } = run(&["--fast"], b"");
    assert_eq!(messages, "chunklist: there is no option --fast; --help says what there is\n");
    assert_eq!((answers.as_str(), status), ("", Some(2)));
}
