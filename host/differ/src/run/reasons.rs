//! Why chunks are too large and why there is no cut: how often each was the answer.

use text::{Answer, CutOutcome};

/// The marks and the nones among the answers to one call's questions.
#[derive(Debug, Clone, Copy, Default)]
pub struct ReasonTally {
    /// Chunks by their mark.
    pub marks: [u64; 3],
    /// Cuts without an answer: of fewer than two modules, and of more of which no cut is allowed.
    pub fewer: u64,
    pub not_allowed: u64,
}

impl ReasonTally {
    /// Counts an answer. All sides have to give the same, so it is counted once.
    pub fn note(&mut self, answer: &Answer) {
        match answer {
            Answer::Chunks(list) => {
                list.chunks.iter().for_each(|chunk| self.marks[usize::from(chunk.mark)] += 1);
            }
            Answer::Cut(CutOutcome::FewerThanTwo) => self.fewer += 1,
            Answer::Cut(CutOutcome::NoneAllowed) => self.not_allowed += 1,
            _ => {}
        }
    }
}
