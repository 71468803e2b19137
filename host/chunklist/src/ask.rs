//! Puts one question to the library.

use text::{Answer, Question};

mod capture;
pub mod chunks;
mod cut;
mod filter;
mod fitted_groups;
mod merge;
mod name;
mod similarity;

/// What came of a question.
#[derive(Debug, Clone, PartialEq)]
pub struct Asked {
    /// The answer, or the number of the refusal.
    pub outcome: Result<Answer, u32>,
    /// What a lent area shows to be wrong; empty unless the library breaks its contract.
    pub warnings: Vec<String>,
}

impl Asked {
    /// An accepted call, with what its areas show.
    fn answered(answer: Answer, faults: impl IntoIterator<Item = Option<String>>) -> Self {
        Self { outcome: Ok(answer), warnings: faults.into_iter().flatten().collect() }
    }

    /// A refused call, with what its areas show.
    fn refused(number: u32, faults: impl IntoIterator<Item = Option<String>>) -> Self {
        Self { outcome: Err(number), warnings: faults.into_iter().flatten().collect() }
    }
}

/// Lends areas as long as the question says, with a pattern in them, calls, and looks at them.
pub fn ask(question: &Question) -> Asked {
    match question {
        Question::Sim(sim) => similarity::ask(sim),
        Question::Cut(cut) => cut::ask(cut),
        Question::Capture(capture) => capture::ask(capture),
        Question::Filter(filter) => filter::ask(filter),
        Question::Merge(merge) => merge::ask(merge),
        Question::Name(name) => name::ask(name),
        Question::Chunks(chunks) => chunks::ask_build(chunks).asked,
    }
}

/// A count as the library takes it.
fn count(written: u64) -> usize {
    usize::try_from(written).unwrap_or(usize::MAX)
}
