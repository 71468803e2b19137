//! The reading of the papers, with what it says of the lent areas.

pub mod areas;

pub use reading::*;
use text::{Answer, ChunkList, Chunks, Question, tables};

use areas::Areas;
use rules::Rules;

/// What comes of a whole build: the chunk list or the number of the refusal, and the lent areas.
#[derive(Debug, Clone, PartialEq)]
pub struct BuildResult {
    pub outcome: Result<ChunkList, u32>,
    pub areas: Areas,
}

/// What comes of a case: of a whole build the lent areas too.
#[derive(Debug, Clone, PartialEq)]
pub enum CaseResult {
    Build(BuildResult),
    Leaf(Result<Answer, u32>),
}

/// A case by these rules.
pub fn case(question: &Question, rules: Rules) -> CaseResult {
    match question {
        Question::Chunks(chunks) => CaseResult::Build(build(chunks, rules)),
        leaf => CaseResult::Leaf(answer_by(rules, leaf)),
    }
}

/// A whole build by these rules.
pub fn build(chunks: &Chunks, rules: Rules) -> BuildResult {
    let tables = tables::of_chunks(chunks);
    let outcome = outcome(&tables, rules);
    let areas = areas::after(&tables, outcome.as_ref().map_err(|number| *number), rules);
    BuildResult { outcome, areas }
}
