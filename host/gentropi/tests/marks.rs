//! Why a chunk is too large: its mark, in whole builds through the safe layer.

use gentropi::{
    Build, Chains, Chunk, ChunksAreas, Group, GroupBuf, IdBuf, Mark, Options, Refusal, chunks,
    chunks_to_vec, flag::ELIGIBLE, raw,
};

/// Modules "a", "b" and so on of these sizes, which run in this order and need nothing.
struct OfSizes {
    ids: IdBuf,
    chains: Chains,
    groups: GroupBuf,
    sizes: Vec<u64>,
    flags: Vec<u8>,
    orders: Vec<u32>,
    zeros: Vec<u64>,
    bits: Vec<[u64; 4]>,
    answers: Vec<u32>,
}

impl OfSizes {
    /// One group of all modules, with these limits.
    fn new(sizes: &[u64], options: Options) -> Self {
        let all = vec![2; sizes.len()];
        Self::grouped(sizes, [Group { options, ..Group::default() }], all)
    }

    /// Groups with their answers, one for each module, group by group.
    fn grouped(sizes: &[u64], groups: impl IntoIterator<Item = Group>, answers: Vec<u32>) -> Self {
        let n = sizes.len();
        Self {
            ids: (b'a'..).take(n).map(|letter| [letter]).collect(),
            chains: Chains::from_lists(vec![[]; n]),
            groups: groups.into_iter().collect(),
            sizes: sizes.to_vec(),
            flags: vec![ELIGIBLE; n],
            orders: (0..).take(n).collect(),
            zeros: vec![0; n],
            bits: vec![[1, 0, 0, 0]; n],
            answers,
        }
    }

    fn build(&self) -> Build<'_> {
        Build {
            modules: self.chains.modules(&self.flags),
            ids: self.ids.as_ids(),
            sizes: &self.sizes,
            orders: &self.orders,
            shares: &self.orders,
            tags: &self.zeros,
            bits: &self.bits,
            entries: 1,
            names: 1,
            options: Options::default(),
            groups: &self.groups,
            answers: &self.answers,
            on_entry: 0,
        }
    }
}

/// A group's limits.
fn limits(min_size: Option<f64>, max_size: Option<f64>) -> Options {
    Options { min_size, max_size, ..Options::default() }
}

/// The modules and the mark of each chunk of a build.
fn marked(build: &Build<'_>) -> Vec<(Vec<u32>, Mark)> {
    let row = |chunk: Chunk| (chunk.modules, chunk.mark);
    chunks_to_vec(build).expect("it is accepted").into_iter().map(row).collect()
}

/// The same of modules of these sizes in one group with these limits.
fn of(sizes: &[u64], min_size: Option<f64>, max_size: Option<f64>) -> Vec<(Vec<u32>, Mark)> {
    marked(&OfSizes::new(sizes, limits(min_size, max_size)).build())
}

#[test]
fn a_chunk_as_large_as_its_maximum_is_within_it() {
    assert_eq!(of(&[5], None, Some(5.0)), [(vec![0], Mark::Within)]);
    assert_eq!(of(&[5], None, Some(4.5)), [(vec![0], Mark::OneModule)]);
    assert_eq!(of(&[2, 3], Some(4.0), Some(5.0)), [(vec![0, 1], Mark::Within)]);
    assert_eq!(of(&[2, 3], Some(4.0), Some(4.5)), [(vec![0, 1], Mark::NoCutAllowed)]);
}

#[test]
fn without_a_maximum_every_chunk_is_within() {
    assert_eq!(of(&[5], None, None), [(vec![0], Mark::Within)]);
    assert_eq!(of(&[5, 5], Some(6.0), None), [(vec![0, 1], Mark::Within)]);
    assert_eq!(of(&[5], None, Some(f64::INFINITY)), [(vec![0], Mark::Within)]);
}

#[test]
fn one_module_above_its_maximum() {
    assert_eq!(of(&[5], None, Some(0.0)), [(vec![0], Mark::OneModule)]);
    // A module without bytes is above a maximum below 0.
    assert_eq!(of(&[0], None, Some(-1.0)), [(vec![0], Mark::OneModule)]);
}

#[test]
fn modules_of_which_no_cut_is_allowed() {
    assert_eq!(of(&[5, 5], Some(6.0), Some(6.0)), [(vec![0, 1], Mark::NoCutAllowed)]);
    assert_eq!(of(&[2, 9, 2], Some(5.0), Some(8.0)), [(vec![0, 1, 2], Mark::NoCutAllowed)]);
    // With a minimum of 5 there is one, and both sides are within.
    let halves = [(vec![1], Mark::Within), (vec![0], Mark::Within)];
    assert_eq!(of(&[5, 5], Some(5.0), Some(6.0)), halves);
}

#[test]
fn a_piece_of_a_cut_has_the_mark_of_its_own_modules() {
    let pieces = [(vec![1], Mark::Within), (vec![0], Mark::OneModule)];
    assert_eq!(of(&[9, 1], None, Some(5.0)), pieces);
    // A cut of 9 and 3, 3: the right piece can't be cut again, the left one neither.
    let pieces = [(vec![1, 2], Mark::NoCutAllowed), (vec![0], Mark::OneModule)];
    assert_eq!(of(&[9, 3, 3], Some(6.0), Some(5.0)), pieces);
}

#[test]
fn modules_that_left_do_not_count() {
    // The first group takes "a"; what is left of the second is "b" alone, within or above its maximum.
    let group = |priority, max_size| Group {
        options: limits(Some(5.0), Some(max_size)),
        priority,
        ..Group::default()
    };
    for (max_size, mark) in [(4.0, Mark::OneModule), (5.0, Mark::Within)] {
        let groups = [group(1, 9.0), group(0, max_size)];
        let sized = OfSizes::grouped(&[9, 5], groups, vec![2, 0, 2, 2]);
        let found = marked(&sized.build());
        assert_eq!(found, [(vec![0], Mark::Within), (vec![1], mark)], "{max_size}");
    }
}

#[test]
fn the_groups_limits_stand_over_those_of_the_build() {
    let in_force = |of_group, of_build| {
        let sized = OfSizes::new(&[5, 5], of_group);
        let found = marked(&Build { options: of_build, ..sized.build() });
        found.into_iter().map(|(_, mark)| mark).collect::<Vec<_>>()
    };
    let none = limits(None, None);
    let large = limits(Some(6.0), Some(6.0));
    assert_eq!(in_force(none, large), [Mark::NoCutAllowed]);
    assert_eq!(in_force(limits(None, Some(10.0)), large), [Mark::Within]);
    assert_eq!(in_force(limits(Some(0.0), Some(4.0)), large), [Mark::OneModule; 2]);
    assert_eq!(in_force(large, limits(Some(0.0), Some(10.0))), [Mark::NoCutAllowed]);
}

/// A build of three modules that makes two chunks, with marks 2 and 0. Every area but that of the marks
/// is as long as it has to be.
fn with_marks(marks: &mut [u8]) -> Result<usize, Refusal> {
    let options = limits(Some(6.0), Some(6.0));
    let groups = [Group { options, ..Group::default() }, Group::default()];
    let sized = OfSizes::grouped(&[5, 5, 1], groups, vec![2, 2, 0, 0, 0, 2]);
    let build = sized.build();
    let numbers = || vec![9; 3];
    let (mut chunk_of, mut next_of, mut first_of) = (numbers(), numbers(), numbers());
    let (mut group_of, mut name_of) = (numbers(), numbers());
    let (mut size_of, mut bits_of) = (vec![9.0; 3], vec![[9; 4]; 3]);
    let mut scratch = vec![9; build.scratch_words()];
    let areas = ChunksAreas {
        chunk_of: &mut chunk_of,
        next_of: &mut next_of,
        first_of: &mut first_of,
        group_of: &mut group_of,
        name_of: &mut name_of,
        size_of: &mut size_of,
        bits_of: &mut bits_of,
        mark_of: marks,
        scratch: &mut scratch,
    };
    let answer = chunks(&build, areas);
    let numbers = [chunk_of, next_of, first_of, group_of, name_of, scratch].concat();
    let kept =
        numbers.iter().all(|number| *number == 9) && size_of == [9.0; 3] && bits_of == [[9; 4]; 3];
    assert_eq!(answer.is_err(), kept);
    answer
}

#[test]
fn an_area_of_marks_one_item_short_is_refused_and_all_areas_stay() {
    let mut short = [9; 2];
    assert_eq!(with_marks(&mut short), Err(Refusal::AREA));
    assert_eq!(short, [9; 2]);
}

#[test]
fn marks_past_the_last_chunk_stay() {
    let (mut enough, mut longer) = ([9; 3], [9; 5]);
    assert_eq!(with_marks(&mut enough), Ok(2));
    assert_eq!(enough, [2, 0, 9]);
    assert_eq!(with_marks(&mut longer), Ok(2));
    assert_eq!(longer, [2, 0, 9, 9, 9]);
}

/// What Cut leaves in its places for the first `n` of two modules of 5 bytes each.
fn places(n: usize, minimum: f64) -> raw::CutPlaces {
    let (offsets, sizes) = (&[0, 1, 2][..=n], &[5, 5][..n]);
    let tables = raw::CutTables { n, bytes: b"ab", offsets, sizes, minimum, maximum: 6.0 };
    let mut places = raw::CutPlaces { why_none: 9, index: 9, left: 9.0, right: 9.5 };
    assert_eq!(raw::cut(&tables, &mut places), 0);
    places
}

#[test]
fn a_cut_says_which_none_it_is_and_leaves_the_other_places() {
    let none = |why_none| raw::CutPlaces { why_none, index: 9, left: 9.0, right: 9.5 };
    for minimum in [f64::NEG_INFINITY, 0.0, 6.0] {
        assert_eq!(places(0, minimum), none(1));
        assert_eq!(places(1, minimum), none(1));
    }
    assert_eq!(places(2, 6.0), none(2));
    let found = raw::CutPlaces { why_none: 0, index: 1, left: 5.0, right: 5.0 };
    assert_eq!(places(2, 5.0), found);
}
