//! Marks of chunks, and the two nones of a cut, by the words of document 02's note 4.

use reading::answer;
use text::{
    Answer, Build, Chunk, Chunks, Cut, CutOutcome, Damage, Group, Module, Options, Question,
};

/// Modules of these sizes, with ids in this order, all of one group with these limits.
fn sized(sizes: &[u64], min_size: Option<f64>, max_size: Option<f64>) -> Build {
    let module = |(order, size): (u32, &u64)| Module {
        flags: 3,
        size: *size,
        order,
        id: vec![b'a' + order as u8],
        ..Module::default()
    };
    let options = Options { min_size, max_size, ..Options::default() };
    Build {
        names: 1,
        modules: (0..).zip(sizes).map(module).collect(),
        groups: vec![Group { options, ..Group::default() }],
        answers: vec![vec![2; sizes.len()]],
        ..Build::default()
    }
}

/// What comes of a build with this damage.
fn outcome(build: &Build, damage: Damage) -> Result<Vec<Chunk>, u32> {
    match answer(&Question::Chunks(Box::new(Chunks { build: build.clone(), damage }))) {
        Ok(Answer::Chunks(list)) => Ok(list.chunks),
        Err(number) => Err(number),
        other => panic!("{other:?}"),
    }
}

/// The size and the mark of each new chunk.
fn marks(build: &Build) -> Vec<(f64, u8)> {
    let chunks = outcome(build, Damage::default()).expect("the build is accepted");
    chunks.iter().map(|chunk| (chunk.size, chunk.mark)).collect()
}

#[test]
fn within_the_maximum_or_without_one() {
    assert_eq!(marks(&sized(&[5], None, None)), [(5.0, 0)]);
    assert_eq!(marks(&sized(&[5], None, Some(5.0))), [(5.0, 0)]);
    assert_eq!(marks(&sized(&[5, 5], Some(6.0), Some(10.0))), [(10.0, 0)]);
    assert_eq!(marks(&sized(&[0], None, Some(f64::INFINITY))), [(0.0, 0)]);
}

#[test]
fn above_it_with_one_module() {
    assert_eq!(marks(&sized(&[5], None, Some(4.0))), [(5.0, 1)]);
    assert_eq!(marks(&sized(&[5], Some(5.0), Some(5.0_f64.next_down()))), [(5.0, 1)]);
    assert_eq!(marks(&sized(&[0], None, Some(-1.0))), [(0.0, 1)]);
}

#[test]
fn above_it_with_no_cut_allowed() {
    assert_eq!(marks(&sized(&[5, 5], Some(6.0), Some(6.0))), [(10.0, 2)]);
    assert_eq!(marks(&sized(&[5, 5], Some(5.0), Some(6.0))), [(5.0, 0), (5.0, 0)]);
    assert_eq!(marks(&sized(&[3, 6, 3], Some(5.0), Some(6.0))), [(12.0, 2)]);
    assert_eq!(marks(&sized(&[6, 3, 3], Some(5.0), Some(6.0))), [(6.0, 0), (6.0, 0)]);
}

#[test]
fn a_piece_counts_like_any_chunk() {
    assert_eq!(marks(&sized(&[9, 1], None, Some(5.0))), [(1.0, 0), (9.0, 1)]);
    assert_eq!(marks(&sized(&[4, 4, 9], Some(8.0), Some(7.0))), [(9.0, 1), (8.0, 2)]);
}

#[test]
fn the_limits_are_those_in_force() {
    let mut build = sized(&[5, 5], None, None);
    build.options = Options { min_size: Some(6.0), max_size: Some(9.0), ..Options::default() };
    assert_eq!(marks(&build), [(10.0, 2)]);
    build.groups[0].options.max_size = Some(10.0);
    assert_eq!(marks(&build), [(10.0, 0)]);
    build.groups[0].options = Options { min_size: Some(0.0), ..Options::default() };
    assert_eq!(marks(&build), [(5.0, 0), (5.0, 0)]);
}

/// A group of higher priority takes the second module.
#[test]
fn what_left_does_not_count() {
    let taken = |sizes: &[u64], min_size, max_size| {
        let mut build = sized(sizes, min_size, max_size);
        build.groups.push(Group { priority: Some(1), ..Group::default() });
        build.answers.push((0..sizes.len()).map(|at| if at == 1 { 2 } else { 0 }).collect());
        marks(&build)[1..].to_vec()
    };
    assert_eq!(taken(&[5, 5], None, Some(6.0)), [(5.0, 0)]);
    assert_eq!(taken(&[7, 5], Some(7.0), Some(6.0)), [(7.0, 1)]);
    assert_eq!(taken(&[4, 9, 4], Some(5.0), Some(6.0)), [(8.0, 2)]);
}

#[test]
fn the_area_of_marks_has_room_for_each_module() {
    let build = sized(&[1, 1], None, None);
    let with = |mark: usize| {
        let records = Some(vec![2, 2, 2, 2, 8, mark]);
        outcome(&build, Damage { records, ..Damage::default() })
    };
    assert_eq!(with(1), Err(12));
    assert_eq!(with(2).map(|chunks| chunks.len()), Ok(1));
}

#[test]
fn a_none_says_why() {
    let cut = |sizes: &[u64], minimum: f64| {
        let modules = sizes.iter().map(|size| (b"a".to_vec(), *size)).collect();
        let damage = Damage::default();
        match answer(&Question::Cut(Cut { minimum, maximum: 5.0, modules, damage })) {
            Ok(Answer::Cut(outcome)) => outcome,
            other => panic!("{other:?}"),
        }
    };
    assert_eq!(cut(&[], 0.0), CutOutcome::FewerThanTwo);
    assert_eq!(cut(&[1], 0.0), CutOutcome::FewerThanTwo);
    assert_eq!(cut(&[1], f64::INFINITY), CutOutcome::FewerThanTwo);
    assert_eq!(cut(&[1, 1], 2.0), CutOutcome::NoneAllowed);
    assert!(matches!(cut(&[1, 1], 1.0), CutOutcome::At(_)));
}
