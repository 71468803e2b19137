//! Document 01's figures, the unmarked ones too, as cases with the replies that the paper gives.

use text::{Case, Reply, TextError, read_cases, read_replies};

/// The figures, each with its reply.
pub fn figures() -> Result<Vec<(Case, Reply)>, TextError> {
    let cases = read_cases(include_str!("../../figures/cases.txt"))?;
    let replies = read_replies(include_str!("../../figures/replies.txt"))?;
    assert_eq!(cases.len(), replies.len(), "a reply for each figure");
    Ok(cases.into_iter().zip(replies).collect())
}

#[cfg(test)]
mod tests {
    use super::*;
    use crate::reference;

    #[test]
    fn the_reference_gives_the_papers_figures() {
        for (case, reply) in figures().expect("the figures can be read") {
            assert_eq!((&case.tag, case.question.call()), (&reply.tag, reply.call));
            assert_eq!(reference::answer(&case.question), reply.outcome, "{}", case.tag);
        }
    }
}
