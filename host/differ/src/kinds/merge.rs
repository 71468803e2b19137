//! Kinds of question for Merge.

use text::Merge;

use super::Kinds;
use crate::reference::{
    merge::{Join, Subgroup, merge, union},
    rules::SOUND,
};

/// The subgroups before each join, and the join.
type Step = (Vec<Option<Subgroup>>, Join);

pub fn kinds(question: &Merge) -> Kinds {
    let threshold = question.threshold.unwrap_or(0.0);
    let given: Vec<Subgroup> =
        question.subgroups.iter().map(|one| Subgroup { size: one.size, bits: one.bits }).collect();
    let mut kinds = of_input(question, threshold);
    if given.len() > 1_000 {
        return without_steps(kinds);
    }
    let steps = steps(&given, threshold);
    kinds.extend(of_seekers(&steps, threshold));
    kinds.extend(of_targets(&steps, threshold));
    kinds
}

fn of_input(question: &Merge, threshold: f64) -> Kinds {
    let sizes = || question.subgroups.iter().map(|subgroup| subgroup.size);
    let bits =
        |word: usize, bit: u32| question.subgroups.iter().any(|one| one.bits[word] >> bit & 1 == 1);
    let total: u64 = sizes().sum();
    vec![
        ("no subgroup", question.subgroups.is_empty()),
        ("one subgroup", question.subgroups.len() == 1),
        ("a threshold of 0 or below", threshold <= 0.0),
        ("an infinite threshold", threshold == f64::INFINITY),
        ("a size at the threshold", sizes().any(|size| size as f64 == threshold)),
        (
            "a size right below the threshold",
            sizes().any(|size| (size as f64) < threshold && size as f64 + 1.0 >= threshold),
        ),
        ("a size of 0", sizes().any(|size| size == 0)),
        ("entry 63 and entry 64", bits(0, 63) && bits(1, 0)),
        ("entry 255 of 256", bits(3, 63)),
        ("a total of 2^53", total == 1 << 53),
        ("4,096 subgroups", question.subgroups.len() == 4_096),
    ]
}

/// The kinds of steps are not looked into where there are thousands.
fn without_steps(mut kinds: Kinds) -> Kinds {
    kinds.extend(of_seekers(&[], 0.0));
    kinds.extend(of_targets(&[], 0.0));
    kinds
}

/// The joins one after another, each with what was there before it.
fn steps(given: &[Subgroup], threshold: f64) -> Vec<Step> {
    let mut state: Vec<Option<Subgroup>> = given.iter().copied().map(Some).collect();
    let mut steps = Vec::new();
    for join in merge(given.to_vec(), threshold).joins {
        steps.push((state.clone(), join));
        if let (Some(gone), Some(target)) = (state[join.from].take(), state[join.to].as_mut()) {
            target.size += gone.size;
            target.bits = union(target.bits, gone.bits);
        }
    }
    steps
}

fn of_seekers(steps: &[Step], threshold: f64) -> Kinds {
    let tie = |(state, join): &Step| {
        let seeker = state[join.from].map(|one| one.size);
        let same = |one: &Option<Subgroup>| one.map(|one| one.size) == seeker;
        state.iter().filter(|one| same(one)).count() > 1
    };
    let joined_size = |(state, join): &Step| {
        state[join.from].map_or(0, |one| one.size) + state[join.to].map_or(0, |one| one.size)
    };
    let later_from =
        |at: usize| steps[at + 1..].iter().any(|(_, join)| join.from == steps[at].1.to);
    let first = steps.first();
    vec![
        ("a join", !steps.is_empty()),
        ("several joins", steps.len() > 1),
        ("all joined into one", first.is_some_and(|(state, _)| steps.len() + 1 == state.len())),
        ("several seekers of the smallest size", steps.iter().any(tie)),
        ("a joined subgroup joins in turn", (0..steps.len()).any(later_from)),
        (
            "a joined size at the threshold",
            steps.iter().any(|s| joined_size(s) as f64 == threshold),
        ),
        (
            "a joined size below the threshold",
            steps.iter().any(|s| (joined_size(s) as f64) < threshold),
        ),
        (
            "a joined size right above the threshold",
            steps.iter().any(|s| {
                let above = joined_size(s) as f64 - threshold;
                above > 0.0 && above <= 1.0
            }),
        ),
    ]
}

fn of_targets(steps: &[Step], threshold: f64) -> Kinds {
    let rivals = |(state, join): &Step| -> Vec<(u32, u64, usize)> {
        let Some(seeker) = state[join.from] else { return Vec::new() };
        let present = state.iter().enumerate().filter(|(number, _)| *number != join.from);
        let mut scores: Vec<_> = present
            .filter_map(|(number, one)| {
                Some((seeker.distance(&(*one)?, SOUND), (*one)?.size, number))
            })
            .collect();
        scores.sort_unstable();
        scores
    };
    let all: Vec<Vec<(u32, u64, usize)>> = steps.iter().map(rivals).collect();
    let best_two =
        |test: fn(&[(u32, u64, usize)]) -> bool| all.iter().any(|s| s.len() > 1 && test(s));
    vec![
        ("a target at distance 0", all.iter().any(|s| s.first().is_some_and(|best| best.0 == 0))),
        ("a target of size 0", all.iter().any(|s| s.first().is_some_and(|best| best.1 == 0))),
        (
            "a target at or above the threshold",
            all.iter().any(|s| s.first().is_some_and(|best| best.1 as f64 >= threshold)),
        ),
        ("targets tie by distance", best_two(|s| s[0].0 == s[1].0 && s[0].1 != s[1].1)),
        ("targets tie by distance and size", best_two(|s| s[0].0 == s[1].0 && s[0].1 == s[1].1)),
        ("a target with a lower number than the seeker", steps.iter().any(|(_, j)| j.to < j.from)),
        ("a target with a higher number than the seeker", steps.iter().any(|(_, j)| j.to > j.from)),
    ]
}
