//! Runs the program.
#![allow(dead_code, reason = "each test uses a part of it")]

pub mod browser;
pub mod samples;

use std::{
    io::Write,
    process::{Command, Output, Stdio},
};

/// What a run came to.
#[derive(Debug, PartialEq, Eq)]
pub struct Ran {
    pub answers: String,
    pub messages: String,
    pub status: Option<i32>,
}

/// Runs the program with arguments and a standard input.
pub fn run(arguments: &[&str], input: &[u8]) -> Ran {
    let mut program = Command::new(env!("CARGO_BIN_EXE_chunklist"));
    run_command(program.args(arguments).stdout(Stdio::piped()), input)
}

/// Runs a command with a standard input.
pub fn run_command(command: &mut Command, input: &[u8]) -> Ran {
    command.stdin(Stdio::piped()).stderr(Stdio::piped());
    let mut child = command.spawn().expect("the command can be run");
    // A program that reads no input may have ended before it is written.
    let _ = child.stdin.take().expect("there is an input").write_all(input);
    let Output { status, stdout, stderr } = child.wait_with_output().expect("the program ends");
    Ran { answers: text(stdout), messages: without_progress(&text(stderr)), status: status.code() }
}

/// Messages without those that only say that long work goes on, which come by the clock.
fn without_progress(messages: &str) -> String {
    messages.split_inclusive('\n').filter(|line| !line.ends_with(" s so far)\n")).collect()
}

fn text(bytes: Vec<u8>) -> String {
    String::from_utf8(bytes).expect("the program writes UTF-8")
}
