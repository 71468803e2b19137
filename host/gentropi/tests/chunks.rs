//! Whole builds: a small one with its areas, and the refusals that need no damaged count.

use gentropi::{
    Build, Chains, ChunksAreas, Group, GroupBuf, IdBuf, Options, Refusal, chunks, chunks_to_vec,
    flag::ELIGIBLE, limits,
};

/// Three modules in reverse execution order, of which the first depends on the second.
struct Small {
    ids: IdBuf,
    chains: Chains,
    groups: GroupBuf,
}

impl Small {
    fn new(groups: &[Group]) -> Self {
        Self {
            ids: IdBuf::from_iter(["a", "b", "v"]),
            chains: Chains::from_lists([vec![1], vec![], vec![]]),
            groups: groups.iter().copied().collect(),
        }
    }

    fn build<'a>(&'a self, answers: &'a [u32]) -> Build<'a> {
        Build {
            modules: self.chains.modules(&[ELIGIBLE; 3]),
            ids: self.ids.as_ids(),
            sizes: &[5, 7, 9],
            orders: &[2, 1, 0],
            shares: &[1, 2, 1],
            tags: &[0, 0, 1],
            bits: &[[1, 0, 0, 0], [1, 0, 0, 0], [2, 0, 0, 0]],
            entries: 2,
            names: 2,
            options: Options::default(),
            groups: &self.groups,
            answers,
            on_entry: 0,
        }
    }
}

/// The modules and the size of each new chunk.
fn found(build: &Build<'_>) -> Result<Vec<(Vec<u32>, f64)>, Refusal> {
    let chunks = chunks_to_vec(build)?;
    Ok(chunks.into_iter().map(|chunk| (chunk.modules, chunk.size)).collect())
}

#[test]
fn dependencies_follow_unless_told_otherwise() {
    let small = Small::new(&[Group::default()]);
    let build = small.build(&[2, 0, 0]);
    assert_eq!(found(&build), Ok(vec![(vec![1, 0], 12.0)]));
    let options = Options { recursive: Some(false), ..Options::default() };
    assert_eq!(found(&Build { options, ..build }), Ok(vec![(vec![0], 5.0)]));
}

#[test]
fn a_group_may_divide_cut_and_drop() {
    let whole = Small::new(&[Group::default()]);
    let answers = [2, 2, 2];
    assert_eq!(found(&whole.build(&answers)), Ok(vec![(vec![2, 1, 0], 21.0)]));
    let aware = Small::new(&[Group { entries_aware: true, ..Group::default() }]);
    // The smallest ids are "a" and "v"; "v" comes first in execution order.
    let divided = Ok(vec![(vec![1, 0], 12.0), (vec![2], 9.0)]);
    assert_eq!(found(&aware.build(&answers)), divided);
    let joined = Group { entries_aware: true, threshold: 10.0, ..Group::default() };
    let joined = Small::new(&[joined]);
    assert_eq!(found(&joined.build(&answers)), Ok(vec![(vec![2, 1, 0], 21.0)]));
    let options = Options { min_size: Some(21.5), ..Options::default() };
    let dropped = Small::new(&[Group { options, ..Group::default() }]);
    assert_eq!(found(&dropped.build(&answers)), Ok(vec![]));
    let tagged = Small::new(&[Group { tags: 1, ..Group::default() }]);
    assert_eq!(found(&tagged.build(&answers)), Ok(vec![(vec![2], 9.0)]));
}

#[test]
fn a_higher_priority_goes_first() {
    let small = Small::new(&[Group::default(), Group { priority: 1, ..Group::default() }]);
    let chunks = chunks_to_vec(&small.build(&[2, 2, 2, 0, 0, 3])).expect("it is accepted");
    let found: Vec<_> = chunks.iter().map(|c| (c.number, c.group, c.name)).collect();
    assert_eq!(found, [(0, 1, 1), (1, 0, 0)]);
    assert_eq!(chunks[1].modules, [1, 0]);
}

#[test]
fn areas_past_the_end_are_kept_and_scratch_ends_as_zeros() {
    let small = Small::new(&[Group::default()]);
    let build = Build { on_entry: 4, ..small.build(&[2, 0, 0]) };
    let (mut chunk_of, mut next_of, mut first_of) = ([9; 4], [9; 4], [9; 3]);
    let (mut group_of, mut name_of, mut size_of) = ([9; 3], [9; 3], [9.0; 3]);
    let (mut bits_of, mut mark_of) = ([[9; 4]; 3], [9; 3]);
    let mut scratch = vec![9; build.scratch_words() + 1];
    let areas = ChunksAreas {
        chunk_of: &mut chunk_of,
        next_of: &mut next_of,
        first_of: &mut first_of,
        group_of: &mut group_of,
        name_of: &mut name_of,
        size_of: &mut size_of,
        bits_of: &mut bits_of,
        mark_of: &mut mark_of,
        scratch: &mut scratch,
    };
    assert_eq!(chunks(&build, areas), Ok(1));
    assert_eq!((chunk_of, next_of), ([5, 5, 0, 9], [0, 1, 0, 9]));
    assert_eq!((first_of, group_of, name_of), ([2, 9, 9], [0, 9, 9], [0, 9, 9]));
    assert_eq!((size_of, bits_of), ([12.0, 9.0, 9.0], [[1, 0, 0, 0], [9; 4], [9; 4]]));
    assert_eq!(mark_of, [0, 9, 9]);
    assert!(scratch.iter().all(|word| *word == 0));
}

#[test]
fn chunks_refuses() {
    let small = Small::new(&[Group::default()]);
    let build = small.build(&[2, 0, 0]);
    let refused = |build: Build<'_>| found(&build).unwrap_err();
    assert_eq!(refused(Build { names: limits::NAMES + 1, ..build }), Refusal::COUNT);
    assert_eq!(refused(Build { answers: &[2, 0], ..build }), Refusal::LENGTH);
    let same = IdBuf::from_iter(["a", "b", "a"]);
    assert_eq!(refused(Build { ids: same.as_ids(), ..build }), Refusal::SAME_ID);
    assert_eq!(refused(Build { orders: &[2, 1, 2], ..build }), Refusal::SAME_ORDER);
    assert_eq!(refused(Build { sizes: &[1 << 53, 1, 0], ..build }), Refusal::TOTAL);
    let options = Options { max_module_size: Some(f64::NAN), ..Options::default() };
    assert_eq!(refused(Build { options, ..build }), Refusal::NAN);
    assert_eq!(refused(Build { entries: 1, ..build }), Refusal::BIT);
    assert_eq!(refused(Build { answers: &[4, 0, 0], ..build }), Refusal::NUMBER);
    assert_eq!(refused(Build { on_entry: 65_536, ..build }), Refusal::CHUNK_COUNT);
}

/// Areas of 3 items and the scratch that the build needs, but one of them an item shorter.
fn shorter(build: &Build<'_>, which: usize) -> Result<usize, Refusal> {
    let length = |area: usize| 3 - usize::from(area == which);
    let words = |area: usize| vec![9; length(area)];
    let (mut chunk_of, mut next_of, mut first_of) = (words(0), words(1), words(2));
    let (mut group_of, mut name_of) = (words(3), words(4));
    let (mut size_of, mut bits_of) = (vec![9.0; length(5)], vec![[9; 4]; length(6)]);
    let mut mark_of = vec![9; length(7)];
    let mut scratch = vec![9; build.scratch_words() - usize::from(which == 8)];
    let areas = ChunksAreas {
        chunk_of: &mut chunk_of,
        next_of: &mut next_of,
        first_of: &mut first_of,
        group_of: &mut group_of,
        name_of: &mut name_of,
        size_of: &mut size_of,
        bits_of: &mut bits_of,
        mark_of: &mut mark_of,
        scratch: &mut scratch,
    };
    let answer = chunks(build, areas);
    let words = [chunk_of, next_of, first_of, group_of, name_of, scratch].concat();
    let kept = words.iter().all(|word| *word == 9)
        && size_of.iter().all(|size| *size == 9.0)
        && bits_of.iter().all(|bits| *bits == [9; 4])
        && mark_of.iter().all(|mark| *mark == 9);
    assert_eq!(answer.is_err(), kept, "area {which}");
    answer
}

#[test]
fn each_area_is_tested() {
    let small = Small::new(&[Group::default()]);
    let build = small.build(&[2, 0, 0]);
    for area in 0..8 {
        assert_eq!(shorter(&build, area), Err(Refusal::AREA), "area {area}");
    }
    assert_eq!(shorter(&build, 8), Err(Refusal::SCRATCH));
    assert_eq!(shorter(&build, 9), Ok(1));
}
