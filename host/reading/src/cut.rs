//! The cut of a list of modules in two.

use crate::{
    rules::{Rules, Telling},
    similarity::similarity,
};

/// A cut that is allowed, with what decides between cuts.
#[derive(Debug, Clone, Copy)]
pub struct Allowed {
    pub index: usize,
    pub left: u64,
    pub right: u64,
    pub similarity: u32,
}

impl Allowed {
    /// How many sides are above the maximum.
    pub fn oversized(&self, maximum: f64) -> usize {
        [self.left, self.right].into_iter().filter(|side| *side as f64 > maximum).count()
    }

    /// The larger side.
    pub fn larger(&self) -> u64 {
        self.left.max(self.right)
    }
}

/// The allowed cuts, upwards: both sides reach the minimum.
pub fn allowed(ids: &[&[u8]], sizes: &[u64], minimum: f64) -> Vec<Allowed> {
    let total: u64 = sizes.iter().sum();
    let mut left = 0;
    let mut cuts = Vec::new();
    for index in 1..ids.len() {
        left += sizes[index - 1];
        let right = total - left;
        if left as f64 >= minimum && right as f64 >= minimum {
            let similarity = similarity(ids[index - 1], ids[index]);
            cuts.push(Allowed { index, left, right, similarity });
        }
    }
    cuts
}

/// Whether a later cut replaces the best so far.
pub fn replaces(later: &Allowed, best: &Allowed, maximum: f64) -> bool {
    let difference = i64::from(later.similarity) - i64::from(best.similarity);
    if difference < -10 {
        return true;
    }
    if difference > 10 {
        return false;
    }
    if later.oversized(maximum) != best.oversized(maximum) {
        return later.oversized(maximum) < best.oversized(maximum);
    }
    later.larger() < best.larger()
}

/// The cut, with the sizes of its two sides.
pub fn cut(ids: &[&[u8]], sizes: &[u64], minimum: f64, maximum: f64) -> Option<(usize, u64, u64)> {
    let mut best: Option<Allowed> = None;
    for later in allowed(ids, sizes, minimum) {
        if best.is_none_or(|best| replaces(&later, &best, maximum)) {
            best = Some(later);
        }
    }
    best.map(|best| (best.index, best.left, best.right))
}

/// Of modules without a cut: whether there are fewer than two of them. Else no cut is allowed.
pub fn is_fewer(rules: Rules, sizes: &[u64], minimum: f64) -> bool {
    let fewer = sizes.len() < 2;
    match rules.telling() {
        None => fewer,
        Some(Telling::Exchanged) => !fewer,
        Some(Telling::AlwaysFewer) => true,
        Some(Telling::NeverFewer) => false,
        Some(Telling::FewerThanOne) => sizes.is_empty(),
        Some(Telling::FewerThanThree) => sizes.len() < 3,
        Some(Telling::FewerAtMinimum) => fewer && sizes.iter().sum::<u64>() as f64 >= minimum,
    }
}
