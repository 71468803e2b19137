//! Similarity of two ids.

use gentropi::raw;
use text::{Answer, Sim};

use super::Asked;
use crate::Lent;

pub fn ask(sim: &Sim) -> Asked {
    let mut score = Lent::<u32>::new("score", 1);
    let number = raw::similarity(&sim.left, &sim.right, &mut score.lend()[0]);
    if number != 0 {
        return Asked::refused(number, [score.untouched()]);
    }
    Asked::answered(Answer::Sim(score.lend()[0]), [])
}
