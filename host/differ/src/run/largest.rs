//! Random builds of 4,096 modules and 65,535 records, with P as large as the plan says.

use std::time::Instant;

use text::{Call, Question, tables};

use super::{Run, Tally};
use crate::{
    generate::{builds, damage_build, large_build},
    rng::Rng,
};

/// One build in so many has a second one that is alike but for load numbers.
const PAIRED: u64 = 10;

/// One in so many has a damaged copy.
const DAMAGED: u64 = 5;

impl Run {
    /// Puts the builds to all sides.
    pub(super) fn check_large_builds(&mut self, tally: &mut Tally) {
        let begin = Instant::now();
        for case in 0..self.plan.largest {
            let mut rng = self.rng(Call::Chunks, case ^ 1 << 41);
            let question = builds::question(large_build::random(&mut rng, self.plan.largest_p));
            let response = self.check(&question);
            tally.large.most_pairs = tally.large.most_pairs.max(pairs(&question));
            tally.large.many_pairs += u64::from(pairs(&question) > 65_535);
            tally.large.builds += 1;
            tally.largest += 1;
            if case % PAIRED == 0 {
                self.check_pair(&mut rng, &question, &response);
            }
            if case % DAMAGED == DAMAGED - 1 {
                self.check_large_damaged(&mut rng, question, case / DAMAGED, tally);
            }
        }
        tally.large.seconds = begin.elapsed();
    }

    /// A damaged copy, which the numbers refuse by turns.
    fn check_large_damaged(
        &mut self,
        rng: &mut Rng,
        question: Question,
        turn: u64,
        tally: &mut Tally,
    ) {
        let Question::Chunks(mut chunks) = question else { return };
        let number = 1 + (turn % 13) as u32;
        if damage_build::plant(rng, &mut chunks, number) {
            self.check_refused(&Question::Chunks(chunks), number, tally);
            tally.large.damaged += 1;
        }
    }
}

/// P of a build: what the scratch that it needs tells.
fn pairs(question: &Question) -> usize {
    let Question::Chunks(chunks) = question else { return 0 };
    tables::scratch_need(&chunks.build) / chunks.build.modules.len().max(1) - 32
}
