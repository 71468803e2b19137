//! Kinds of question for Cut.

use text::{Cut, CutOutcome};

use super::Kinds;
use crate::reference::cut::{Allowed, allowed, replaces};

/// A later cut beside the best so far, and whether it replaced it.
type Comparison = (Allowed, Allowed, bool);

pub fn kinds(cut: &Cut, answer: &CutOutcome) -> Kinds {
    let ids: Vec<&[u8]> = cut.modules.iter().map(|(id, _)| id.as_slice()).collect();
    let sizes: Vec<u64> = cut.modules.iter().map(|(_, size)| *size).collect();
    let cuts = allowed(&ids, &sizes, cut.minimum);
    let mut kinds = of_input(cut, &sizes);
    kinds.extend(of_limits(cut, &ids, &sizes));
    kinds.extend(of_choice(&cuts, cut.maximum, answer));
    kinds.extend(of_nones(cut, answer));
    kinds.extend([("one cut allowed", cuts.len() == 1), ("several cuts allowed", cuts.len() > 1)]);
    kinds
}

/// Why there is no cut.
fn of_nones(cut: &Cut, answer: &CutOutcome) -> Kinds {
    let (count, total) = (cut.modules.len(), cut.modules.iter().map(|(_, size)| size).sum::<u64>());
    let fewer = *answer == CutOutcome::FewerThanTwo;
    let not_allowed = *answer == CutOutcome::NoneAllowed;
    vec![
        ("fewer than two modules: none at all", fewer && count == 0),
        ("fewer than two modules: one", fewer && count == 1),
        ("one module below the minimum", fewer && count == 1 && (total as f64) < cut.minimum),
        ("no cut allowed of two modules", not_allowed && count == 2),
        ("no cut allowed of more modules", not_allowed && count > 2),
        ("no cut allowed of modules that reach the minimum twice", {
            not_allowed && total as f64 >= 2.0 * cut.minimum
        }),
    ]
}

fn of_input(cut: &Cut, sizes: &[u64]) -> Kinds {
    let ids = || cut.modules.iter().map(|(id, _)| id);
    vec![
        ("a size of 0", sizes.contains(&0)),
        ("all sizes 0", sizes.len() > 1 && sizes.iter().all(|size| *size == 0)),
        ("a total of 2^53", sizes.iter().sum::<u64>() == 1 << 53),
        ("equal neighbouring ids", ids().zip(ids().skip(1)).any(|(a, b)| a == b)),
        ("4,096 modules", sizes.len() == 4_096),
        ("an id of 1,024 bytes", ids().any(|id| id.len() == 1_024)),
    ]
}

fn of_limits(cut: &Cut, ids: &[&[u8]], sizes: &[u64]) -> Kinds {
    let all = allowed(ids, sizes, f64::NEG_INFINITY);
    let left = |limit: f64| all.iter().any(|cut| cut.left as f64 == limit);
    let right = |limit: f64| all.iter().any(|cut| cut.right as f64 == limit);
    let near = |limit: f64| left(limit + 1.0) || right(limit + 1.0);
    vec![
        ("a left side at the minimum", left(cut.minimum)),
        ("a right side at the minimum", right(cut.minimum)),
        ("a side one below the minimum", left(cut.minimum - 1.0) || right(cut.minimum - 1.0)),
        ("a side at the next double below the minimum", {
            let below = cut.minimum.next_down();
            below != cut.minimum - 1.0 && (left(below) || right(below))
        }),
        ("a left side at the maximum", left(cut.maximum)),
        ("a right side at the maximum", right(cut.maximum)),
        ("a side one above the maximum", near(cut.maximum)),
        ("an infinite minimum", cut.minimum.is_infinite()),
        ("an infinite maximum", cut.maximum.is_infinite()),
    ]
}

fn of_choice(cuts: &[Allowed], maximum: f64, answer: &CutOutcome) -> Kinds {
    let scan = scan(cuts, maximum);
    let lower_by = |by: i64| scan.iter().any(|(later, best, _)| gap(later, best) == -by);
    let higher_by = |by: i64| scan.iter().any(|(later, best, _)| gap(later, best) == by);
    let near = |pair: &&Comparison| gap(&pair.0, &pair.1).abs() <= 10;
    let by_count =
        |(later, best, _): &Comparison| later.oversized(maximum) != best.oversized(maximum);
    let tie = |pair: &&Comparison| near(pair) && !by_count(pair);
    let lowest = cuts.iter().map(|cut| cut.similarity).min();
    let is_chosen =
        |cut: &&Allowed| matches!(answer, CutOutcome::At(at) if at.index == cut.index as u64);
    let chosen = cuts.iter().find(is_chosen);
    vec![
        ("similarity lower by 9", lower_by(9)),
        ("similarity lower by 10", lower_by(10)),
        ("similarity lower by 11", lower_by(11)),
        ("similarity higher by 9", higher_by(9)),
        ("similarity higher by 10", higher_by(10)),
        ("similarity higher by 11", higher_by(11)),
        ("fewer oversized sides win", scan.iter().filter(near).any(|p| by_count(p) && p.2)),
        ("more oversized sides lose", scan.iter().filter(near).any(|p| by_count(p) && !p.2)),
        ("a smaller larger side wins", scan.iter().filter(tie).any(|p| p.2)),
        (
            "an equal larger side loses",
            scan.iter().filter(tie).any(|p| p.0.larger() == p.1.larger()),
        ),
        ("two sides above the maximum", cuts.iter().any(|cut| cut.oversized(maximum) == 2)),
        ("not the lowest similarity overall", chosen.map(|cut| cut.similarity) > lowest),
    ]
}

fn gap(later: &Allowed, best: &Allowed) -> i64 {
    i64::from(later.similarity) - i64::from(best.similarity)
}

/// The comparisons of a scan, one after another.
fn scan(cuts: &[Allowed], maximum: f64) -> Vec<Comparison> {
    let mut comparisons = Vec::new();
    let Some(mut best) = cuts.first().copied() else {
        return comparisons;
    };
    for later in &cuts[1..] {
        let replaced = replaces(later, &best, maximum);
        comparisons.push((*later, best, replaced));
        if replaced {
            best = *later;
        }
    }
    comparisons
}
