//! Builds, leaf calls and their answers as text.
//!
//! A *case* is one call: its tag, what is handed in, and how that is damaged on purpose. A
//! *reply* is what a side answered. [`read_cases`] and [`read_replies`] read them, their
//! `Display` writes them, and [`tables`] lays a case out as the flat tables that a call takes.
//!
//! ```
//! let cases = text::read_cases("sim first 61 6a\n").unwrap();
//! assert_eq!(cases[0].tag, "first");
//! assert_eq!(cases[0].to_string(), "sim first 61 6a\n");
//! ```
#![forbid(unsafe_code)]

pub mod case;
pub mod damage;
pub mod drawn;
mod lines;
mod quote;
mod read_build;
mod read_leaf;
mod read_reply;
pub mod reply;
pub mod tables;
pub mod tree;
mod with_lines;
mod words;
mod write_case;
mod write_reply;

use std::fmt;

pub use case::{Build, Call, Capture, Case, Chunks, Cut, Filter, Group, Merge, Module, Options};
pub use case::{Name, Question, Record, Sim, Subgroup};
pub use damage::{Count, Damage, Table};
pub use lines::whole_text;
pub use quote::Quoted;
pub use reply::{Answer, Chunk, ChunkList, CutAnswer, CutOutcome, MergedSubgroup, Reply};

/// Why a text can't be read, and in which line.
#[derive(Debug, Clone, PartialEq, Eq)]
pub struct TextError {
    /// The line, counted from 1.
    pub line: usize,
    /// What is wrong with it.
    pub message: String,
}

impl fmt::Display for TextError {
    fn fmt(&self, f: &mut fmt::Formatter<'_>) -> fmt::Result {
        write!(f, "line {}: {}", self.line, self.message)
    }
}

impl std::error::Error for TextError {}

/// Reads all cases of a text.
pub fn read_cases(text: &str) -> Result<Vec<Case>, TextError> {
    Cases::new(text.as_bytes()).collect()
}

/// Reads all replies of a text.
pub fn read_replies(text: &str) -> Result<Vec<Reply>, TextError> {
    let mut lines = lines::Lines::new(text.as_bytes());
    let mut replies = Vec::new();
    while let Some(reply) = read_reply::next_reply(&mut lines)? {
        replies.push(reply);
    }
    Ok(replies)
}

/// The cases of a text, one after another; it ends after the first error.
pub struct Cases<'a> {
    lines: lines::Lines<'a>,
    failed: bool,
}

impl<'a> Cases<'a> {
    /// The cases of this text. It should be UTF-8; the first line that isn't is an error.
    pub fn new(text: &'a [u8]) -> Self {
        Self { lines: lines::Lines::new(text), failed: false }
    }

    /// The line of the call in the case handed out last; of a build the first one.
    pub fn line(&self) -> usize {
        self.lines.case()
    }
}

impl Iterator for Cases<'_> {
    type Item = Result<Case, TextError>;
    fn next(&mut self) -> Option<Self::Item> {
        if self.failed {
            return None;
        }
        let case = read_leaf::next_case(&mut self.lines);
        self.failed = case.is_err();
        case.transpose()
    }
}
