//! The largest leaf calls that are accepted.

use text::{Call, Capture, Cut, Damage, Filter, Merge, Name, Question, Record, Sim, Subgroup};

use super::{largest_build, merge, numbers::TOTAL, records::index};
use crate::rng::Rng;

/// The limits of the counts.
pub const MODULES: usize = 4_096;
pub const RECORDS: usize = 65_535;
const NAMES: usize = 65_535;
const ENTRIES: usize = 256;

/// The largest questions of a call.
pub fn largest(call: Call, rng: &mut Rng) -> Vec<Question> {
    match call {
        Call::Similarity => similarity(),
        Call::Cut => cut(rng).into_iter().map(Question::Cut).collect(),
        Call::Capture => capture(rng).into_iter().map(Question::Capture).collect(),
        Call::Filter => vec![filter(TOTAL), filter(TOTAL - 1)],
        Call::Merge => merge_questions(rng).into_iter().map(Question::Merge).collect(),
        Call::Name => names().into_iter().map(|name| Question::Name(Box::new(name))).collect(),
        Call::Chunks => largest_build::largest(rng),
    }
}

fn similarity() -> Vec<Question> {
    let long = |byte: u8| vec![byte; 1_024];
    let pairs = [(b'a', b'a'), (b'a', b'j'), (b'a', b'k'), (0, 127)];
    pairs.map(|(a, b)| Question::Sim(Sim { left: long(a), right: long(b) })).to_vec()
}

fn filter(size: u64) -> Question {
    let limit = Some(TOTAL as f64);
    Question::Filter(Filter {
        mask: u64::MAX,
        min_module_size: limit,
        max_module_size: limit,
        min_share_count: Some(u32::MAX),
        tags: u64::MAX,
        size,
        share_count: u32::MAX,
    })
}

/// So many sizes that add to 2^53 exactly.
pub fn full_sizes(rng: &mut Rng, count: usize) -> Vec<u64> {
    let mut sizes: Vec<u64> = (1..count).map(|_| rng.below(TOTAL / count as u64)).collect();
    sizes.push(TOTAL - sizes.iter().sum::<u64>());
    sizes
}

/// 4,096 modules with ids of 1,024 bytes and a total of 2^53; and 4,096 with short ids.
fn cut(rng: &mut Rng) -> Vec<Cut> {
    let mut cuts = Vec::new();
    for length in [1_024, 1_024, 8] {
        let mut id = |_| (0..length).map(|_| rng.pick(b"aabk")).collect();
        let ids: Vec<Vec<u8>> = (0..MODULES).map(&mut id).collect();
        let modules = ids.into_iter().zip(full_sizes(rng, MODULES)).collect();
        let share = rng.pick(&[4.0, 8.0, 1_000.0]);
        let (minimum, maximum) = (TOTAL as f64 / share, TOTAL as f64 / 2.0);
        cuts.push(Cut { minimum, maximum, modules, damage: Damage::default() });
    }
    cuts
}

/// 4,096 modules with 65,535 records: a random graph, one path through all modules, and one chain
/// of all records.
fn capture(rng: &mut Rng) -> Vec<Capture> {
    let mut record =
        |at: usize| Record { module: rng.small(4_096), next: index(at - rng.at(at.min(20) + 1)) };
    let records = (0..RECORDS).map(&mut record).collect();
    let first = (0..MODULES).map(|_| rng.small(65_536)).collect();
    let flags = (0..MODULES).map(|at| if at > 0 && rng.one_in(9) { 7 } else { 3 }).collect();
    let random = of(flags, first, records);
    let path = (1..MODULES).map(|module| Record { module: index(module), next: 0 }).collect();
    let steps = (1..=MODULES).map(|record| index(record % MODULES)).collect();
    let path = of(vec![3; MODULES], steps, path);
    let one_chain = (0..RECORDS)
        .map(|at| Record { module: rng.small(4_096), next: index((at + 2) % (RECORDS + 1)) })
        .collect();
    let mut first = vec![0; MODULES];
    first[0] = 1;
    let mut chain = of(vec![3; MODULES], first, one_chain);
    chain.flags[1] = 2;
    vec![random, path, chain]
}

fn of(flags: Vec<u8>, first: Vec<u32>, records: Vec<Record>) -> Capture {
    Capture { recursive: true, start: 0, flags, first, records, damage: Damage::default() }
}

/// 4,096 subgroups of 256 entries: all different, all alike, and few different.
fn merge_questions(rng: &mut Rng) -> Vec<Merge> {
    let mut questions = Vec::new();
    for (most, threshold) in [(8, f64::INFINITY), (0, TOTAL as f64 / 2_048.0), (2, 1e12)] {
        let sizes = full_sizes(rng, MODULES);
        let subgroup = |size| Subgroup { size, bits: merge::bits(rng, 256, most) };
        let subgroups = sizes.into_iter().map(subgroup).collect();
        let threshold = Some(threshold);
        questions.push(Merge { entries: 256, threshold, subgroups, damage: Damage::default() });
    }
    questions
}

/// 65,535 names and 256 entries: all of them short, and one of a million bytes, shown whole or cut.
fn names() -> Vec<Name> {
    let short = |number: usize| format!("{number:05}").into_bytes();
    let long = || [short(NAMES - 1), vec![b'z'; 1_000_000]].concat();
    let name = |last: Vec<u8>, entries_aware| Name {
        group_names: (0..NAMES - 1).map(short).chain([last]).collect(),
        entry_names: (0..ENTRIES).map(short).collect(),
        number: index(NAMES - 1),
        entries_aware,
        bits: [u64::MAX; 4],
        hash: b"01234567".to_vec(),
        damage: Damage::default(),
    };
    vec![name(short(NAMES - 1), true), name(long(), false), name(long(), true)]
}
