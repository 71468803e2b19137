//! The lines of a text, one after another, each with its number.

use std::slice::SplitInclusive;

use crate::{TextError, words::Words};

/// A text that is UTF-8 from its start to its end.
///
/// # Errors
///
/// The first line that isn't.
pub fn whole_text(bytes: &[u8]) -> Result<&str, TextError> {
    str::from_utf8(bytes).map_err(|error| {
        let before = &bytes[..error.valid_up_to()];
        let line = 1 + before.iter().filter(|byte| **byte == b'\n').count();
        TextError { line, message: NOT_UTF8.into() }
    })
}

/// What is wrong with a line that isn't UTF-8.
const NOT_UTF8: &str = "the text isn't UTF-8";

/// Whether a byte ends a line.
type IsEnd = fn(&u8) -> bool;

/// Walks the lines of a text. A line is looked at when its turn comes, so that what stands before
/// one that isn't UTF-8 can be read.
pub struct Lines<'a> {
    rest: SplitInclusive<'a, u8, IsEnd>,
    /// The number of the line handed out last.
    last: usize,
    /// The number of the line in which the case read last began.
    case: usize,
}

impl<'a> Lines<'a> {
    /// The lines of this text.
    pub fn new(text: &'a [u8]) -> Self {
        let is_end: IsEnd = |byte| *byte == b'\n';
        Self { rest: text.split_inclusive(is_end), last: 0, case: 1 }
    }

    /// The next line within a case: an error at the end of the text.
    pub fn inside(&mut self, wanted: &str) -> Result<Words<'a>, TextError> {
        match self.step()? {
            Some(words) => Ok(words),
            None => Err(self.error(format!("the text ends where {wanted} is expected"))),
        }
    }

    /// The next line between cases: empty lines and comments are passed over.
    pub fn between(&mut self) -> Result<Option<Words<'a>>, TextError> {
        loop {
            match self.step()? {
                Some(words) if words.is_passed_over() => {}
                other => return Ok(other),
            }
        }
    }

    /// An error that names the line handed out last.
    pub fn error(&self, message: String) -> TextError {
        TextError { line: self.last.max(1), message }
    }

    /// Notes that a case begins in the line handed out last.
    pub fn begin_case(&mut self) {
        self.case = self.last;
    }

    /// The line in which the case read last began.
    pub fn case(&self) -> usize {
        self.case
    }

    fn step(&mut self) -> Result<Option<Words<'a>>, TextError> {
        let Some(line) = self.rest.next() else {
            return Ok(None);
        };
        self.last += 1;
        match str::from_utf8(line) {
            Ok(line) => Ok(Some(Words::new(self.last, line))),
            Err(_) => Err(self.error(NOT_UTF8.into())),
        }
    }
}
