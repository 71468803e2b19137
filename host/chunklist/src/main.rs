//! The program: answers the calls of a file or of standard input, or shows the list of a tree.
#![forbid(unsafe_code)]

mod arguments;
mod input;
mod progress;
mod show_tree;

use std::{
    env,
    io::{self, BufWriter, Write},
    process::ExitCode,
};

use arguments::Request;
use input::Source;
use progress::Progress;

/// What `--help` prints.
const HELP: &str = include_str!("../help.txt");

/// The exit status of bad usage.
const BAD_USAGE: u8 = 2;

fn main() -> ExitCode {
    match arguments::request(env::args_os().skip(1)) {
        Ok(Request::Help) => finished(io::stdout().write_all(HELP.as_bytes()).map(|()| true)),
        Ok(Request::Answer(file)) => answer(&Source(file)),
        Ok(Request::Tree(request)) => show_tree::show_tree(&request),
        Err(message) => {
            say(&format!("{message}; --help says what there is"));
            ExitCode::from(BAD_USAGE)
        }
    }
}

/// Answers all calls of a text.
fn answer(source: &Source) -> ExitCode {
    let text = match source.text() {
        Ok(text) => text,
        Err(message) => {
            say(&format!("{}: {message}", source.name()));
            return ExitCode::FAILURE;
        }
    };
    let _progress = Progress::of(format!("answering the calls of {}", source.name()));
    let mut answers = BufWriter::new(io::stdout().lock());
    let messages = chunklist::answer_all(&text, &mut answers);
    let written = messages.and_then(|messages| answers.flush().map(|()| messages));
    finished(written.map(|messages| {
        for line in &messages.lines {
            say(&format!("{}: {line}", source.name()));
        }
        messages.is_clean()
    }))
}

/// The exit status after the answers were written, if they could be.
fn finished(clean: io::Result<bool>) -> ExitCode {
    match clean {
        Ok(true) => ExitCode::SUCCESS,
        Ok(false) => ExitCode::FAILURE,
        Err(error) => {
            // Whoever read the answers has closed them: there is nobody to tell.
            if error.kind() != io::ErrorKind::BrokenPipe {
                say(&format!("the answers can't be written: {error}"));
            }
            ExitCode::FAILURE
        }
    }
}

/// A message beside the answers.
fn say(message: &str) {
    // Without anybody to tell there is nothing to be done about it.
    let _ = writeln!(io::stderr(), "chunklist: {message}");
}
