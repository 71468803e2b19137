//! A side: something that answers questions.

use chunklist::{Asked, AskedBuild, ask_build};
use judge::{Judge, Outside};
use text::{Answer, Chunks, Question, tables};

use crate::reference::{self, areas, rules::SOUND};

/// What a side says to a question.
#[derive(Debug, Clone, PartialEq)]
pub enum Response {
    Answered(Answer),
    /// The number of the refusal.
    Refused(u32),
    /// It can't be asked this.
    Outside(Outside),
    /// What it wrote where it must not, or left in scratch, beside what it said.
    Wrote(Result<Answer, u32>, Vec<String>),
}

impl From<Result<Answer, u32>> for Response {
    fn from(outcome: Result<Answer, u32>) -> Self {
        match outcome {
            Ok(answer) => Self::Answered(answer),
            Err(number) => Self::Refused(number),
        }
    }
}

/// A side of the comparison.
pub trait Side {
    /// Its name in reports.
    fn name(&self) -> &'static str;

    /// What it says to a question.
    fn respond(&self, question: &Question) -> Response;
}

/// The proved library, which is asked every question, damaged ones included. Its areas are lent with
/// a pattern in them and looked at after the call; those of a whole build have to hold, entry by
/// entry, what the reading says of them.
pub struct Library;

impl Side for Library {
    fn name(&self) -> &'static str {
        "library"
    }

    fn respond(&self, question: &Question) -> Response {
        let Asked { outcome, warnings } = match question {
            Question::Chunks(chunks) => build(chunks),
            leaf => chunklist::ask(leaf),
        };
        if warnings.is_empty() { outcome.into() } else { Response::Wrote(outcome, warnings) }
    }
}

/// A whole build, with the areas held against those of the reading.
fn build(chunks: &Chunks) -> Asked {
    let AskedBuild { mut asked, areas } = ask_build(chunks);
    let outcome = match &asked.outcome {
        Ok(Answer::Chunks(list)) => Ok(list),
        Ok(_) => return asked,
        Err(number) => Err(*number),
    };
    let after = areas::after(&tables::of_chunks(chunks), outcome, SOUND);
    asked.warnings.extend(after.differs_from(&areas));
    asked
}

/// Document 01, read plainly.
pub struct Reference;

impl Side for Reference {
    fn name(&self) -> &'static str {
        "reference"
    }

    fn respond(&self, question: &Question) -> Response {
        reference::answer(question).into()
    }
}

impl Side for Judge {
    fn name(&self) -> &'static str {
        "crate"
    }

    /// Only a question that document 01 accepts may be put to the crate, which refuses nothing.
    fn respond(&self, question: &Question) -> Response {
        match self.answer(question) {
            Ok(answer) => Response::Answered(answer),
            Err(outside) => Response::Outside(outside),
        }
    }
}

#[cfg(test)]
mod tests {
    use chunklist::{BuildAreas, ask_build};
    use text::{Answer, Call, Question, tables};

    use crate::{
        generate,
        reference::{
            areas::{self, Words},
            rules::{Area, SOUND},
        },
        rng::Rng,
    };

    /// Areas of which one word is changed.
    struct Changed<'a> {
        areas: &'a BuildAreas,
        entry: (usize, usize),
    }

    impl Words for Changed<'_> {
        fn length(&self, area: usize) -> usize {
            self.areas.length(area)
        }

        fn word(&self, area: usize, place: usize) -> u64 {
            self.areas.word(area, place) ^ u64::from((area, place) == self.entry)
        }
    }

    /// Changes one word at a time in the areas of a few builds, past the end too.
    #[test]
    fn every_entry_of_every_area_is_held_against_the_reading() {
        let mut changed = 0;
        for case in 0..40 {
            let Question::Chunks(chunks) =
                generate::plain(Call::Chunks, &mut Rng::for_case(9, case))
            else {
                unreachable!("a whole build was asked for")
            };
            let asked = ask_build(&chunks);
            let Ok(Answer::Chunks(list)) = &asked.asked.outcome else { continue };
            let after = areas::after(&tables::of_chunks(&chunks), Ok(list), SOUND);
            assert_eq!(after.differs_from(&asked.areas), None);
            for area in 0..Area::ALL.len() {
                for place in 0..asked.areas.length(area) {
                    let other = Changed { areas: &asked.areas, entry: (area, place) };
                    assert!(after.differs_from(&other).is_some(), "area {area}, entry {place}");
                    changed += 1;
                }
            }
        }
        assert!(changed > 1_000, "{changed}");
    }
}
