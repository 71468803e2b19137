//! A bad line gets a message with its number.

use text::{Cases, read_cases, read_replies};

/// The message for a text that can't be read.
fn message(text: &str) -> String {
    read_cases(text).expect_err("the text is bad").to_string()
}

#[test]
fn the_line_is_named() {
    assert_eq!(message("sim a . .\nsin b . .\n"), "line 2: unknown call `sin`");
    assert_eq!(message("\n\nsim a .\n"), "line 3: the line ends where the second ID is expected");
}

#[test]
fn words_are_what_they_have_to_be() {
    assert_eq!(
        message("sim a 6 .\n"),
        "line 1: the first ID is neither `.` nor hexadecimal pairs: `6`"
    );
    assert_eq!(
        message("cut a 0 - 0000000000000000\n"),
        "line 1: MINIMUM is no double of 16 hexadecimal digits: `-`"
    );
    assert_eq!(
        message("filter a 0 - - -1 0 0 0\n"),
        "line 1: MIN_SHARE_COUNT is no decimal number in range: `-1`"
    );
    assert_eq!(message("capture a 1 0 2 0 3 0\n"), "line 1: RECURSIVE is neither 1 nor 0: `2`");
    assert_eq!(
        message("capture a 1 0 1 0 256 0\n"),
        "line 1: FLAGS is no decimal number in range: `256`"
    );
    assert_eq!(message("sim a . . .\n"), "line 1: nothing more is expected, but `.` follows");
}

#[test]
fn a_build_has_its_lines_in_order() {
    let head = "chunks a 1 0 0 0 0 0\no - - - - - -\n";
    assert_eq!(message(head), "line 2: the text ends where a line `m` is expected");
    assert_eq!(message(&format!("{head}d 0 0\n")), "line 3: `m` is expected, not `d`");
    assert_eq!(message(&format!("{head}\n")), "line 3: `m` is expected, not an empty line");
    let module = format!("{head}m 3 1 0 0 0 0 0 0 0 0 61\n");
    assert_eq!(message(&format!("{module}stop\n")), "line 4: `end` is expected, not `stop`");
    assert_eq!(
        message(&format!("{module}areas 1 1 1 33\nlen flags 0\nend\n")),
        "line 5: `len` comes too late here"
    );
}

#[test]
fn with_lines_fit_the_call_after_them() {
    assert_eq!(message("with len flags 1\nsim a . .\n"), "line 1: `with` can't stand before `sim`");
    assert_eq!(
        message("with len flags 1\nmerge a 0 0 -\n"),
        "line 1: the call has no table `flags`"
    );
    assert_eq!(message("with areas 1\n"), "line 1: the text ends after `with`, without a call");
    assert_eq!(message("# \nwith count g 1\nmerge a 0 0 -\n"), "line 2: the call has no count `g`");
    assert_eq!(
        message("with offsets 0\nname a 0 0 0 0 0 0 0 0 .\n"),
        "line 1: the call that follows has no offsets"
    );
    assert_eq!(
        message("with entry_offsets 0\ncut a 0 0000000000000000 0000000000000000\n"),
        "line 1: the call that follows has no entry_offsets"
    );
    assert_eq!(
        message("with name_offsets 0\nname a 1 0 0 0 0 0 0 0 . 61\n"),
        "line 1: the line ends where an offset is expected"
    );
    assert_eq!(
        message("with len offsets 1\nname a 0 0 0 0 0 0 0 0 .\n"),
        "line 1: the call has no table `offsets`"
    );
}

#[test]
fn a_build_has_no_tables_of_names() {
    let text = "chunks a 0 0 0 0 0 0\no - - - - - -\nlen name_offsets 1\nend\n";
    assert_eq!(message(text), "line 3: the call has no table `name_offsets`");
}

#[test]
fn a_name_has_the_length_that_is_said() {
    let error = read_replies("name a 2 61\n").expect_err("it has one byte").to_string();
    assert_eq!(error, "line 1: a name of 1 bytes isn't one of 2");
}

#[test]
fn a_none_says_why() {
    let message = |text: &str| read_replies(text).expect_err("the none is bad").to_string();
    assert_eq!(
        message("cut a none\n"),
        "line 1: the line ends where fewer-than-two or not-allowed is expected"
    );
    assert_eq!(
        message("cut a none few\n"),
        "line 1: none is `fewer-than-two` or `not-allowed`, not `few`"
    );
    assert_eq!(
        message("cut a none not-allowed 1\n"),
        "line 1: nothing more is expected, but `1` follows"
    );
}

#[test]
fn a_chunk_has_its_mark() {
    let message = |line: &str| {
        let text = format!("chunks a 1\nc 0 0 0 0000000000000000 0 1 0 0 0{line}\nm 1\nend\n");
        read_replies(&text).map_err(|error| error.to_string())
    };
    assert!(message(" 2 0").is_ok());
    assert_eq!(message(" 3 0"), Err("line 2: MARK is 0, 1 or 2, not 3".into()));
    assert_eq!(message(""), Err("line 2: the line ends where MARK is expected".into()));
    assert_eq!(message(" 256 0"), Err("line 2: MARK is no decimal number in range: `256`".into()));
}

#[test]
fn a_build_says_the_length_of_each_record_area() {
    let text = "chunks a 0 0 0 0 0 0\no - - - - - -\nrecords 0 0 0 0 0\nend\n";
    assert_eq!(message(text), "line 3: the line ends where LENGTH is expected");
}

#[test]
fn a_long_word_is_shortened() {
    let long = "7".repeat(10_000_000);
    let shown = format!("{}... (10000000 bytes)", &long[..60]);
    assert_eq!(message(&format!("{long} a . .\n")), format!("line 1: unknown call `{shown}`"));
}

#[test]
fn a_long_word_is_shortened_wherever_it_stands() {
    let long = "7".repeat(1_000);
    for bad in [
        format!("sim a . . {long}\n"),
        format!("sim a {}x .\n", &long[1..]),
        format!("cut a {long}\n"),
        format!("filter a {long}\n"),
        format!("merge a 0 0 {long}\n"),
        format!("capture a 0 0 {long}\n"),
        format!("name a 0 0 0 {long}\n"),
        format!("with {long}\nmerge a 0 0 -\n"),
        format!("with len {long} 0\nmerge a 0 0 -\n"),
        format!("with count {long} 0\nmerge a 0 0 -\n"),
        format!("chunks a 0 0 0 0 0 0\n{long}\n"),
        format!("chunks a 0 0 0 0 0 0\no - - - - - -\n{long}\n"),
    ] {
        let message = message(&bad);
        assert!(message.len() < 200 && message.contains("... (1000 bytes)"), "{message}");
    }
    let reply = read_replies(&format!("{long} a\n")).expect_err("no reply begins so").to_string();
    assert!(reply.len() < 200, "{reply}");
}

#[test]
fn what_a_terminal_would_obey_is_escaped() {
    assert_eq!(message("\u{1b}[31mred\u{7} a\n"), "line 1: unknown call `\\u{1b}[31mred\\u{7}`");
    assert_eq!(message("sim a \u{202e} .\n").matches("\\u{202e}").count(), 1);
    assert_eq!(message("it's a\n"), "line 1: unknown call `it's`");
}

#[test]
fn cases_before_a_line_that_is_not_utf_8_are_read() {
    let mut cases = Cases::new(b"sim a . .\n\n# b\nsim b . .\n# \xff\nsim c . .\n");
    assert_eq!(cases.next().map(|case| case.map(|case| case.tag)), Some(Ok("a".into())));
    assert_eq!(cases.line(), 1);
    assert_eq!(cases.next().map(|case| case.map(|case| case.tag)), Some(Ok("b".into())));
    assert_eq!(cases.line(), 4);
    let error = cases.next().and_then(Result::err).expect("the line is bad");
    assert_eq!(error.to_string(), "line 5: the text isn't UTF-8");
    assert_eq!(cases.next(), None);
}

#[test]
fn a_build_with_a_line_that_is_not_utf_8_names_it() {
    let text = b"chunks a 1 0 0 0 0 0\no - - - - - -\nm \xc3\n";
    let error = Cases::new(text).next().and_then(Result::err).expect("the line is bad");
    assert_eq!(error.to_string(), "line 3: the text isn't UTF-8");
}
