//! The merge of small subgroups.

use crate::rules::{Rules, SOUND, Use};

/// A subgroup.
#[derive(Debug, Clone, Copy)]
pub struct Subgroup {
    pub size: u64,
    pub bits: [u64; 4],
}

impl Subgroup {
    /// Whether it seeks a target: above 0 and below the threshold.
    pub fn seeks(&self, threshold: f64) -> bool {
        self.size > 0 && (self.size as f64) < threshold
    }

    /// The entries held by exactly one of the two.
    pub fn distance(&self, other: &Self, rules: Rules) -> u32 {
        let [left, right] = [self, other].map(|one| rules.words(Use::Distance, one.bits));
        (0..4).map(|word| (left[word] ^ right[word]).count_ones()).sum()
    }
}

/// One join: a subgroup that vanished, and the one that it joined.
#[derive(Debug, Clone, Copy)]
pub struct Join {
    pub from: usize,
    pub to: usize,
}

/// What a merge leaves.
pub struct Merged {
    /// The subgroups, `None` for one that vanished.
    pub left: Vec<Option<Subgroup>>,
    /// The joins, one after another.
    pub joins: Vec<Join>,
}

impl Merged {
    /// The final number of a subgroup, over several joins.
    pub fn number(&self, subgroup: usize) -> u32 {
        let follow = |at, join: &Join| if join.from == at { join.to } else { at };
        u32::try_from(self.joins.iter().fold(subgroup, follow)).unwrap_or(u32::MAX)
    }
}

/// While some subgroup seeks and another exists, the smallest such (then lowest number) joins the
/// other with the least distance, then smallest size, then lowest number.
pub fn merge(subgroups: Vec<Subgroup>, threshold: f64) -> Merged {
    merge_by(SOUND, subgroups, threshold)
}

/// The same by other rules.
pub fn merge_by(rules: Rules, subgroups: Vec<Subgroup>, threshold: f64) -> Merged {
    let mut merged = Merged { left: subgroups.into_iter().map(Some).collect(), joins: Vec::new() };
    if threshold > 0.0 && merged.left.len() > 1 {
        while let Some(join) = next_join(rules, &merged.left, threshold) {
            apply(rules, &mut merged.left, join);
            merged.joins.push(join);
        }
    }
    merged
}

/// The next join, if there is one.
pub fn next_join(rules: Rules, left: &[Option<Subgroup>], threshold: f64) -> Option<Join> {
    let present = || left.iter().enumerate().filter_map(|(number, one)| Some((number, (*one)?)));
    let (from, seeker) = present()
        .filter(|(_, subgroup)| subgroup.seeks(threshold))
        .min_by_key(|(number, subgroup)| (subgroup.size, *number))?;
    let (to, _) =
        present().filter(|(number, _)| *number != from).min_by_key(|(number, subgroup)| {
            (seeker.distance(subgroup, rules), subgroup.size, *number)
        })?;
    Some(Join { from, to })
}

/// The joined one keeps the target's number; sizes add, bits unite.
fn apply(rules: Rules, left: &mut [Option<Subgroup>], join: Join) {
    let Some(gone) = left[join.from].take() else {
        return;
    };
    if let Some(target) = &mut left[join.to] {
        target.size += gone.size;
        target.bits = union(target.bits, rules.words(Use::Joined, gone.bits));
    }
}

/// The entries of either.
pub fn union(left: [u64; 4], right: [u64; 4]) -> [u64; 4] {
    [0, 1, 2, 3].map(|word| left[word] | right[word])
}
