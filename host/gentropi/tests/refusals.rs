//! Each refusal of each call, and that the lowest number that applies is the one given.

use gentropi::{
    Chains, Cut, EntryBits, FilteredModule, Ids, Modules, Refusal, StaticFilter, Subgroups,
    capture, capture_to_vec, cut, filter, limits, merge_to_vec, raw, similarity,
};

/// The ids "a" and "bc".
const TWO: Ids<'static> = Ids { bytes: b"abc", offsets: &[0, 1, 3] };

#[test]
fn similarity_refuses_long_ids() {
    let (long, longest) = ([0; limits::ID_BYTES + 1], [0; limits::ID_BYTES]);
    assert_eq!(similarity(&long, b""), Err(Refusal::ID));
    assert_eq!(similarity(b"", &long), Err(Refusal::ID));
    assert_eq!(similarity(&longest, b""), Ok(0));
}

/// A cut of ids that are parts of "abc".
fn cut_with(offsets: &[u32], sizes: &[u64]) -> Result<Cut, Refusal> {
    cut(Ids { bytes: b"abc", offsets }, sizes, 0.0, 0.0)
}

#[test]
fn cut_refuses() {
    let many = limits::MODULES + 1;
    assert_eq!(cut_with(&vec![0; many + 1], &vec![0; many]), Err(Refusal::COUNT));
    assert_eq!(cut_with(&[0, 3], &[1, 1]), Err(Refusal::LENGTH));
    assert_eq!(cut_with(&[], &[]), Err(Refusal::LENGTH));
    assert_eq!(cut_with(&[0, 2, 1], &[1, 1]), Err(Refusal::ID));
    assert_eq!(cut_with(&[0, 2, 4], &[1, 1]), Err(Refusal::ID));
    assert_eq!(cut_with(&[4], &[]), Err(Refusal::ID));
    assert_eq!(cut_with(TWO.offsets, &[u64::MAX, u64::MAX]), Err(Refusal::TOTAL));
    assert_eq!(cut(TWO, &[1, 1], f64::NAN, 0.0), Err(Refusal::NAN));
    assert_eq!(cut(TWO, &[1, 1], 0.0, f64::NAN), Err(Refusal::NAN));
}

#[test]
fn the_lowest_number_comes_back() {
    assert_eq!(cut(TWO, &[u64::MAX, 1], f64::NAN, 0.0), Err(Refusal::TOTAL));
    let falls = Ids { bytes: b"", offsets: &[1, 0, 0] };
    assert_eq!(cut(falls, &[u64::MAX, 1], f64::NAN, 0.0), Err(Refusal::ID));
    assert_eq!(cut(falls, &[u64::MAX], f64::NAN, 0.0), Err(Refusal::LENGTH));
}

#[test]
fn filter_refuses() {
    let nan = Some(f64::NAN);
    let module = FilteredModule::default();
    let none = StaticFilter::default();
    assert_eq!(filter(&StaticFilter { min_module_size: nan, ..none }, module), Err(Refusal::NAN));
    assert_eq!(filter(&StaticFilter { max_module_size: nan, ..none }, module), Err(Refusal::NAN));
    let large = FilteredModule { size: limits::TOTAL_SIZE + 1, ..module };
    assert_eq!(filter(&none, large), Err(Refusal::TOTAL));
    assert_eq!(filter(&StaticFilter { min_module_size: nan, ..none }, large), Err(Refusal::TOTAL));
}

/// One module with one record, which is of this module and leads there.
fn one<'a>(flags: &'a [u8], dependency: &'a [u32], next: &'a [u32]) -> Modules<'a> {
    Modules { flags, first: &[1], dependency, next }
}

#[test]
fn capture_refuses_tables() {
    let answer = |modules| capture_to_vec(modules, 0, true);
    let (flags, first) = (vec![3; limits::MODULES + 1], vec![0; limits::MODULES + 1]);
    let many = Modules { flags: &flags, first: &first, dependency: &[0], next: &[0] };
    assert_eq!(answer(many), Err(Refusal::COUNT));
    let records = vec![0; limits::RECORDS + 2];
    assert_eq!(answer(one(&[3], &records, &records)), Err(Refusal::COUNT));
    assert_eq!(answer(one(&[3], &[], &[])), Err(Refusal::LENGTH));
    assert_eq!(answer(one(&[3], &[0], &[0, 0])), Err(Refusal::LENGTH));
    assert_eq!(answer(one(&[3, 3], &[0, 0], &[0, 0])), Err(Refusal::LENGTH));
    assert_eq!(answer(one(&[3], &[0], &[0])), Err(Refusal::RECORD), "the first record");
    assert_eq!(answer(one(&[3], &[0, 1], &[0, 0])), Err(Refusal::RECORD), "the module");
    assert_eq!(answer(one(&[3], &[0, 0], &[0, 2])), Err(Refusal::RECORD), "the next record");
    assert_eq!(answer(one(&[3], &[0, 0], &[0, 1])), Err(Refusal::RECORD), "a circle");
    assert_eq!(answer(one(&[8], &[0, 0], &[0, 0])), Err(Refusal::BIT));
    assert_eq!(answer(one(&[3], &[0, 0], &[0, 0])), Ok(vec![1]));
}

#[test]
fn capture_refuses_starts_and_areas() {
    let chains = Chains::from_lists([[1], [0]]);
    let modules = chains.modules(&[3, 3]);
    let with = |start, marks, scratch| {
        let (mut marks, mut scratch) = (vec![7; marks], vec![7; scratch]);
        let answer = capture(modules, start, true, &mut marks, &mut scratch);
        assert!(answer.is_ok() || marks.iter().all(|mark| *mark == 7));
        assert!(answer.is_ok() || scratch.iter().all(|word| *word == 7));
        answer
    };
    assert_eq!(with(2, 2, 2), Err(Refusal::NUMBER));
    assert_eq!(with(0, 1, 1), Err(Refusal::AREA));
    assert_eq!(with(0, 2, 1), Err(Refusal::SCRATCH));
    assert_eq!(with(0, 2, 2), Ok(()));
}

/// A merge of subgroups of two entries.
fn merge_of(sizes: &[u64], bits: &[EntryBits], threshold: f64) -> Result<usize, Refusal> {
    let merged = merge_to_vec(Subgroups { entries: 2, sizes, bits }, threshold)?;
    Ok(merged.len())
}

#[test]
fn merge_refuses_tables() {
    let many = limits::MODULES + 1;
    assert_eq!(merge_of(&vec![0; many], &vec![[0; 4]; many], 0.0), Err(Refusal::COUNT));
    let entries = Subgroups { entries: limits::ENTRIES + 1, sizes: &[], bits: &[] };
    assert_eq!(merge_to_vec(entries, 0.0), Err(Refusal::COUNT));
    assert_eq!(merge_of(&[0], &[], 0.0), Err(Refusal::LENGTH));
    assert_eq!(merge_of(&[1 << 53, 1], &[[0; 4]; 2], 0.0), Err(Refusal::TOTAL));
    assert_eq!(merge_of(&[], &[], f64::NAN), Err(Refusal::NAN));
    assert_eq!(merge_of(&[0], &[[4, 0, 0, 0]], 0.0), Err(Refusal::BIT));
    assert_eq!(merge_of(&[0], &[[0, 0, 0, 1]], 0.0), Err(Refusal::BIT));
    assert_eq!(merge_of(&[0], &[[3, 0, 0, 0]], f64::INFINITY), Ok(1));
}

#[test]
fn merge_refuses_short_areas() {
    let tables = raw::MergeTables { k: 1, entries: 0, sizes: &[1], bits: &[0; 4], threshold: 0.0 };
    let with = |numbers, sizes, bits| {
        let (mut numbers, mut sizes, mut bits) = (vec![7; numbers], vec![7; sizes], vec![7; bits]);
        let areas = raw::MergeAreas { numbers: &mut numbers, sizes: &mut sizes, bits: &mut bits };
        let answer = Refusal::check(raw::merge(&tables, areas));
        let kept = numbers.iter().all(|number| *number == 7)
            && sizes.iter().chain(&bits).all(|word| *word == 7);
        assert!(answer.is_ok() || kept);
        answer
    };
    assert_eq!(with(0, 1, 4), Err(Refusal::AREA));
    assert_eq!(with(1, 0, 4), Err(Refusal::AREA));
    assert_eq!(with(1, 1, 3), Err(Refusal::AREA));
    assert_eq!(with(1, 1, 4), Ok(()));
}

#[test]
fn counts_that_are_not_those_of_the_tables_are_refused() {
    let tables =
        raw::MergeTables { k: usize::MAX, entries: 0, sizes: &[], bits: &[], threshold: 0.0 };
    let areas = raw::MergeAreas { numbers: &mut [], sizes: &mut [], bits: &mut [] };
    assert_eq!(Refusal::check(raw::merge(&tables, areas)), Err(Refusal::COUNT));
    let tables = raw::CutTables {
        n: usize::MAX,
        bytes: TWO.bytes,
        offsets: TWO.offsets,
        sizes: &[1, 1],
        minimum: 0.0,
        maximum: 0.0,
    };
    let mut places = raw::CutPlaces { why_none: 7, index: 7, left: 7.0, right: 7.0 };
    let before = places;
    assert_eq!(Refusal::check(raw::cut(&tables, &mut places)), Err(Refusal::COUNT));
    assert_eq!(places, before);
    let one_less = raw::CutTables { n: 1, ..tables };
    assert_eq!(Refusal::check(raw::cut(&one_less, &mut places)), Err(Refusal::LENGTH));
    assert_eq!(places, before);
}
