//! Answers each case of a text.

use std::io::{self, Write};

use text::{Case, Cases, Quoted, Reply};

use crate::{Asked, ask, room::Room};

/// What came beside the answers.
#[derive(Debug, Clone, PartialEq, Eq, Default)]
pub struct Messages {
    /// A line that can't be read or a call whose areas can't be had, which ends the text, with the
    /// line's number.
    pub lines: Vec<String>,
    /// How many lines that begin with `!` were written.
    pub warnings: usize,
}

impl Messages {
    /// Whether each call was answered and none wrote where it must not.
    pub fn is_clean(&self) -> bool {
        self.lines.is_empty() && self.warnings == 0
    }
}

/// Writes the answer to each case of a text, up to the first line that can't be read or the first
/// call whose areas can't be had.
///
/// # Errors
///
/// An answer can't be written.
pub fn answer_all(text: &[u8], answers: &mut impl Write) -> io::Result<Messages> {
    let mut messages = Messages::default();
    let mut cases = Cases::new(text);
    while let Some(case) = cases.next() {
        let roomy = |case| with_room(case, cases.line());
        match case.map_err(|error| error.to_string()).and_then(roomy) {
            Ok((case, room)) => messages.warnings += answer(case, room, answers)?,
            Err(line) => {
                messages.lines.push(line);
                break;
            }
        }
    }
    Ok(messages)
}

/// A case beside the room that its areas take; the error is a message about its line.
fn with_room(case: Case, line: usize) -> Result<(Case, Room), String> {
    let room = Room::of(&case.question);
    let named = |error| {
        let call = case.question.call().word();
        format!("line {line}: {call} {}: {error}", Quoted(&case.tag))
    };
    room.check().map_err(named)?;
    Ok((case, room))
}

/// Writes the answer to a case, and answers how many of its lines begin with `!`.
fn answer(case: Case, room: Room, answers: &mut impl Write) -> io::Result<usize> {
    if room.is_large() {
        // If the system ends the program for the memory it takes, earlier answers are out.
        answers.flush()?;
    }
    let asked = ask(&case.question);
    write_reply(case, asked, answers)
}

/// Writes the reply to a case, and answers how many of its lines begin with `!`.
fn write_reply(case: Case, asked: Asked, answers: &mut impl Write) -> io::Result<usize> {
    let call = case.question.call();
    let named = |warning| format!("{} {}: {warning}", call.word(), case.tag);
    let warnings: Vec<String> = asked.warnings.into_iter().map(named).collect();
    let count = warnings.len();
    let reply = Reply { tag: case.tag, call, outcome: asked.outcome, warnings };
    write!(answers, "{reply}")?;
    Ok(count)
}

#[cfg(test)]
mod tests {
    use text::{Answer, read_cases};

    use super::{Asked, write_reply};

    #[test]
    fn a_warning_is_a_line_of_its_own() {
        let mut cases = read_cases("sim a . .\n").expect("the case can be read");
        let warnings = vec!["score[0] was written by a refused call".to_string()];
        let mut answers = Vec::new();
        let asked = Asked { outcome: Ok(Answer::Sim(0)), warnings };
        let count = write_reply(cases.remove(0), asked, &mut answers).expect("a vector takes all");
        let expected = "sim a 0\n! sim a: score[0] was written by a refused call\n";
        assert_eq!((count, answers), (1, expected.as_bytes().to_vec()));
    }
}
