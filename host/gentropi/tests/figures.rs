//! The paper's figures for the five calls, through the safe layer.

use gentropi::{
    Chains, Cut, CutPoint, FilteredModule, IdBuf, Merged, Refusal, StaticFilter, Subgroups,
    capture_to_vec, cut, filter, flag, merge_to_vec, similarity,
};

/// The largest total.
const LARGEST: u64 = 1 << 53;

/// A cut that is accepted.
fn cut_of(ids: &[&str], sizes: &[u64], minimum: f64, maximum: f64) -> Cut {
    let ids: IdBuf = ids.iter().collect();
    cut(ids.as_ids(), sizes, minimum, maximum).expect("it is accepted")
}

/// A cut by its index and sizes.
fn at(index: usize, left_size: f64, right_size: f64) -> Cut {
    Cut::At(CutPoint { index, left_size, right_size })
}

/// Number, size and first word of each subgroup after a merge with threshold 10.
fn merged(entries: usize, subgroups: &[(u64, u64)]) -> Vec<(u32, u64, u64)> {
    let sizes: Vec<u64> = subgroups.iter().map(|(size, _)| *size).collect();
    let bits: Vec<[u64; 4]> = subgroups.iter().map(|(_, word)| [*word, 0, 0, 0]).collect();
    let merged = merge_to_vec(Subgroups { entries, sizes: &sizes, bits: &bits }, 10.0);
    let row = |merged: Merged| (merged.number, merged.size, merged.bits[0]);
    merged.expect("it is accepted").into_iter().map(row).collect()
}

#[test]
fn similarity_of_ids() {
    assert_eq!(similarity(b"", b"a"), Ok(0));
    assert_eq!(similarity(b"a", b"a"), Ok(10));
    assert_eq!(similarity(b"a", b"j"), Ok(1));
    assert_eq!(similarity(b"a", b"k"), Ok(0));
    assert_eq!(similarity(b"src/a", b"src/b"), Ok(49));
    assert_eq!(similarity(&[7; 1_024], &[7; 1_024]), Ok(10_240));
}

#[test]
fn cut_takes_the_lowest_similarity() {
    let ids = ["ui/a", "ui/b", "vendor/b"];
    assert_eq!(cut_of(&ids, &[10, 10, 10], 0.0, 20.0), at(2, 20.0, 10.0));
}

#[test]
fn cut_keeps_to_its_minimum() {
    let (ids, sizes) = (["m1", "m2", "m3"], [10, 20, 30]);
    assert_eq!(cut_of(&ids, &sizes, 0.0, 40.0), at(2, 30.0, 30.0));
    assert_eq!(cut_of(&ids, &sizes, 30.0, 40.0), at(2, 30.0, 30.0));
    assert_eq!(cut_of(&ids, &sizes, 31.0, 40.0), Cut::NoneAllowed);
}

#[test]
fn cut_ties_within_ten() {
    assert_eq!(cut_of(&["ka", "kaa", "kk"], &[5, 1, 1], 0.0, 10.0), at(1, 5.0, 2.0));
    assert_eq!(cut_of(&["ja", "jaa", "kk"], &[5, 1, 1], 0.0, 10.0), at(2, 6.0, 1.0));
}

#[test]
fn cut_needs_two_modules() {
    for (minimum, maximum) in [(0.0, 0.0), (f64::INFINITY, 0.0), (f64::NEG_INFINITY, -1.0)] {
        assert_eq!(cut_of(&[], &[], minimum, maximum), Cut::FewerThanTwo);
        assert_eq!(cut_of(&["a"], &[1], minimum, maximum), Cut::FewerThanTwo);
    }
    assert_eq!(cut_of(&["a", "b"], &[1, 1], f64::INFINITY, 0.0), Cut::NoneAllowed);
    assert_eq!(cut_of(&["a", "b"], &[0, 0], 0.0, 0.0), at(1, 0.0, 0.0));
}

#[test]
fn merge_joins_what_is_small() {
    assert_eq!(merged(2, &[(5, 1), (100, 2), (50, 3)]), [(2, 0, 0), (1, 100, 2), (2, 55, 3)]);
    assert_eq!(merged(2, &[(10, 1), (10, 2)]), [(0, 10, 1), (1, 10, 2)]);
    assert_eq!(merged(2, &[(0, 1), (5, 2)]), [(0, 5, 3), (0, 0, 0)]);
    assert_eq!(merged(0, &[]), []);
}

#[test]
fn totals_go_up_to_two_to_the_53() {
    let half = LARGEST / 2;
    let sides = at(1, half as f64, half as f64);
    assert_eq!(cut_of(&["a", "b"], &[half, half], 0.0, 0.0), sides);
    assert_eq!(merged(0, &[(LARGEST, 0)]), [(0, LARGEST, 0)]);
    let module = FilteredModule { size: LARGEST, ..FilteredModule::default() };
    assert_eq!(filter(&StaticFilter::default(), module), Ok(true));
    let larger = FilteredModule { size: LARGEST + 1, ..module };
    assert_eq!(filter(&StaticFilter::default(), larger), Err(Refusal::TOTAL));
}

#[test]
fn filter_limits_are_inclusive() {
    let module = FilteredModule { tags: 0b111, size: 10, share_count: 2 };
    let exact = StaticFilter {
        mask: 0b101,
        min_module_size: Some(10.0),
        max_module_size: Some(10.0),
        min_share_count: Some(2),
    };
    assert_eq!(filter(&exact, module), Ok(true));
    assert_eq!(filter(&StaticFilter { mask: 0b1000, ..exact }, module), Ok(false));
    assert_eq!(filter(&StaticFilter { min_module_size: Some(10.5), ..exact }, module), Ok(false));
    assert_eq!(filter(&StaticFilter { max_module_size: Some(9.5), ..exact }, module), Ok(false));
    assert_eq!(filter(&StaticFilter { min_share_count: Some(3), ..exact }, module), Ok(false));
}

#[test]
fn capture_walks_through_eligible_modules_only() {
    let chains = Chains::from_lists([vec![1], vec![2], vec![]]);
    let eligible = [flag::ELIGIBLE; 3];
    let modules = chains.modules(&eligible);
    assert_eq!(capture_to_vec(modules, 0, true), Ok(vec![1, 1, 1]));
    assert_eq!(capture_to_vec(modules, 0, false), Ok(vec![1, 0, 0]));
    let assigned = [3, flag::ELIGIBLE | flag::ASSIGNED, 3];
    let modules = chains.modules(&assigned);
    assert_eq!(capture_to_vec(modules, 0, true), Ok(vec![1, 0, 0]));
    assert_eq!(capture_to_vec(modules, 1, true), Ok(vec![0, 0, 0]));
}
