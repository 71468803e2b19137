//! Answers that can't be written are an error.

mod common;

use std::{
    fs::File,
    process::{Command, Stdio},
};

use common::{Ran, run_command};

/// The program with its answers going to a device that is full.
fn into_full(arguments: &[&str], input: &[u8]) -> Ran {
    let full = File::options().write(true).open("/dev/full").expect("there is such a device");
    let mut program = Command::new(env!("CARGO_BIN_EXE_chunklist"));
    run_command(program.args(arguments).stdout(full), input)
}

/// That the message says what is wrong, and the status too.
fn is_told(ran: Ran) {
    let Ran { messages, status, .. } = ran;
    assert!(messages.starts_with("chunklist: the answers can't be written: "), "{messages}");
    assert_eq!((messages.lines().count(), status), (1, Some(1)));
}

#[test]
fn answers_to_a_full_device() {
    is_told(into_full(&[], b"sim a . .\n"));
}

#[test]
fn many_answers_to_a_full_device() {
    is_told(into_full(&[], "sim a . .\n".repeat(10_000).as_bytes()));
}

#[test]
fn help_to_a_full_device() {
    is_told(into_full(&["--help"], b""));
}

#[test]
fn nothing_to_a_full_device_is_no_error() {
    assert_eq!(into_full(&[], b"").status, Some(0));
}

#[test]
fn a_reader_that_went_away_gets_no_message() {
    // The shell gives the program a pipe whose other end is closed before it writes.
    let mut shell = Command::new("sh");
    let piped = "{ sleep 1; printf 'sim a . .\\n' | \"$1\"; echo $? >&2; } | true";
    shell.args(["-c", piped, "sh", env!("CARGO_BIN_EXE_chunklist")]).stdout(Stdio::null());
    assert_eq!(run_command(&mut shell, b"").messages, "1\n");
}
