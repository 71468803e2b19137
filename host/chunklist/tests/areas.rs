//! Areas that can't be had end in a message, after the answers to what came before.

mod common;

use std::process::{Command, Stdio};

use common::{Ran, run, run_command};

/// A call with an answer, and then a build with areas of 2^30 entries.
const BUILD: &str = "sim a . .\nchunks b 0 0 0 0 0 0\no - - - - - -\n\
    areas 1073741824 1073741824 1073741824 1073741824\nend\nsim c . .\n";

#[test]
fn more_than_a_call_may_ask_for() {
    let Ran { answers, messages, status } = run(&[], BUILD.as_bytes());
    assert_eq!(
        messages,
        "chunklist: standard input: line 2: chunks b: its areas and lengthened tables \
         take 69793218560 bytes, above 8589934592\n"
    );
    assert_eq!((answers.as_str(), status), ("sim a 0\n", Some(1)));
}

/// Runs the program where it may have two gigabytes of memory, on a call between two others.
fn limited(call: &str) -> Ran {
    let mut shell = Command::new("sh");
    let limited = "ulimit -v 2000000 && exec \"$1\"";
    shell.args(["-c", limited, "sh", env!("CARGO_BIN_EXE_chunklist")]).stdout(Stdio::piped());
    run_command(&mut shell, format!("sim a . .\n{call}sim c . .\n").as_bytes())
}

/// That the first call is answered, and of the second it is said how much it would take.
fn is_told(ran: Ran, named: &str, bytes: u64) {
    let Ran { answers, messages, status } = ran;
    assert_eq!(
        messages,
        format!(
            "chunklist: standard input: {named}: its areas and lengthened tables take {bytes} bytes, \
             above the memory that there is\n"
        )
    );
    assert_eq!((answers.as_str(), status), ("sim a 0\n", Some(1)));
}

#[test]
fn more_than_there_is_memory_for() {
    let areas = limited("with areas 1073741824 1073741824\ncapture b 1 0 0 0 3 0\n");
    is_told(areas, "line 3: capture b", 5 << 30);
    let build = "chunks b 0 0 0 0 0 0\no - - - - - -\nlen groups 16777216\nareas 0 0 0 0\nend\n";
    is_told(limited(build), "line 2: chunks b", 4 << 30);
}

#[test]
fn long_areas_that_can_be_had_are_lent() {
    let text = "with areas 20000000 20000000\ncapture a 1 0 0 0 3 0\n";
    let expected = Ran { answers: "capture a 1\n".into(), messages: "".into(), status: Some(0) };
    assert_eq!(run(&[], text.as_bytes()), expected);
}
