//! The order of the subgroups of one (group, name): by the smallest id that each held when they were
//! finished, after merging.

use reading::answer;
use text::{Answer, Build, Chunk, Chunks, Damage, Group, Module, Options, Question};

/// An id with its size, execution order and entry bits.
type Part<'a> = (&'a str, u64, u32, u64);

/// These modules in one entries-aware group.
fn aware(parts: &[Part<'_>]) -> Build {
    let part = |(id, size, order, bits): &Part<'_>| Module {
        flags: 3,
        size: *size,
        order: *order,
        bits: [*bits, 0, 0, 0],
        id: id.as_bytes().to_vec(),
        ..Module::default()
    };
    Build {
        entries: 4,
        names: 1,
        modules: parts.iter().map(part).collect(),
        groups: vec![Group { entries_aware: Some(true), ..Group::default() }],
        answers: vec![vec![2; parts.len()]],
        ..Build::default()
    }
}

/// The same with a group of higher priority that takes the first module.
fn without_first(mut build: Build) -> Build {
    build.groups.push(Group { priority: Some(1), ..Group::default() });
    build.answers.push((0..build.modules.len()).map(|at| if at == 0 { 2 } else { 0 }).collect());
    build
}

/// The new chunks.
fn chunks(build: &Build) -> Vec<Chunk> {
    let chunks = Chunks { build: build.clone(), damage: Damage::default() };
    match answer(&Question::Chunks(Box::new(chunks))) {
        Ok(Answer::Chunks(list)) => list.chunks,
        other => panic!("{other:?}"),
    }
}

/// The ids of each chunk, in execution order.
fn ids(build: &Build) -> Vec<String> {
    let id = |module: &u32| String::from_utf8_lossy(&build.modules[*module as usize].id);
    chunks(build).iter().map(|chunk| chunk.modules.iter().map(id).collect()).collect()
}

#[test]
fn the_smallest_id_comes_first() {
    assert_eq!(ids(&aware(&[("b", 1, 0, 1), ("a", 1, 1, 2)])), ["a", "b"]);
    assert_eq!(ids(&aware(&[("z", 1, 0, 1), ("m", 1, 1, 2), ("a", 1, 2, 1)])), ["za", "m"]);
    assert_eq!(ids(&aware(&[("ab", 1, 0, 1), ("b", 1, 1, 2), ("a", 1, 2, 4)])), ["a", "ab", "b"]);
}

#[test]
fn what_joined_counts() {
    let mut build = aware(&[("a", 1, 2, 1), ("m", 5, 0, 6), ("z", 5, 1, 9)]);
    assert_eq!(ids(&build), ["a", "m", "z"]);
    build.groups[0].threshold = Some(3.0);
    assert_eq!(ids(&build), ["za", "m"]);
}

#[test]
fn what_left_counts() {
    let build = without_first(aware(&[("a", 1, 2, 1), ("m", 1, 0, 2), ("z", 1, 1, 1)]));
    assert_eq!(ids(&build), ["a", "z", "m"]);
}

#[test]
fn pieces_stand_where_their_item_stood() {
    let mut build = aware(&[("a", 5, 1, 1), ("m", 5, 0, 2), ("z", 5, 2, 1)]);
    build.groups[0].options = Options { max_size: Some(5.0), ..Options::default() };
    assert_eq!(ids(&build), ["z", "a", "m"]);
    assert_eq!(ids(&without_first(build)), ["a", "z", "m"]);
}

#[test]
fn priority_group_and_name_come_before_ids() {
    let mut build = aware(&[("d", 1, 0, 1), ("c", 1, 1, 2), ("b", 1, 2, 1), ("a", 1, 3, 2)]);
    build.names = 2;
    build.answers = vec![vec![2, 2, 3, 3]];
    assert_eq!(ids(&build), ["c", "d", "a", "b"]);
    build.groups.push(build.groups[0].clone());
    build.answers = vec![vec![2, 2, 0, 0], vec![0, 0, 2, 2]];
    assert_eq!(ids(&build), ["c", "d", "a", "b"]);
    build.groups[1].priority = Some(1);
    assert_eq!(ids(&build), ["a", "b", "c", "d"]);
}

/// Without joins no change of execution order moves a chunk; only the modules in it change places.
#[test]
fn without_joins_chunks_stay_where_they_are() {
    let orders = [[0, 1, 2, 3], [3, 2, 1, 0], [1, 3, 0, 2], [2, 0, 3, 1], [0, 3, 1, 2]];
    for code in 0..81_u64 {
        let bits = |at: u32| 1 + code / 3_u64.pow(at) % 3;
        let sorted = |order: [u32; 4]| {
            let parts = [("d", 1), ("a", 2), ("c", 1), ("b", 3)];
            let part = |at: usize| (parts[at].0, parts[at].1, order[at], bits(at as u32));
            let mut build = aware(&[part(0), part(1), part(2), part(3)]);
            build.options.max_size = Some(3.0);
            let mut chunks = chunks(&build);
            chunks.iter_mut().for_each(|chunk| chunk.modules.sort_unstable());
            chunks
        };
        for order in orders {
            assert_eq!(sorted(order), sorted(orders[0]), "{code} {order:?}");
        }
    }
}
