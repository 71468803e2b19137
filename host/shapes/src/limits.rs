//! Builds at the limits of document 01.

use text::{Build, Group, Options, Record, drawn::drawn};

use super::{aware, flat, tree};

/// The greatest count of dependency records.
const RECORDS: u32 = 65_535;

/// The greatest total of sizes.
const TOTAL: u64 = 1 << 53;

/// All counts at their limits, ids too, and sizes that add to 2^53. Each group has one start, from
/// which all modules are reached; all groups but the last are dropped, so that each is walked.
pub fn all(count: u32) -> Build {
    let mut modules = tree::modules(count);
    let size = TOTAL / u64::from(count);
    for (number, module) in (0..).zip(&mut modules) {
        let id = String::from_utf8_lossy(&module.id).into_owned();
        module.id = format!("{id:-<1024}").into_bytes();
        module.size = size;
        module.bits = aware::wide_bits(drawn(60, number) % 200);
        module.first_record = number + 1;
    }
    modules[0].size += TOTAL - size * u64::from(count);
    let answers = |group: u32| {
        let mut answers = vec![0; count as usize];
        answers[(drawn(61, group) % count) as usize] = 2 + (group * 1_040) % 65_535;
        answers
    };
    Build {
        entries: 256,
        names: 65_535,
        count_on_entry: 65_535,
        records: scattered(count),
        groups: (0..64).map(group).collect(),
        answers: (0..64).map(answers).collect(),
        ..flat::one_group(modules, Group::default())
    }
}

/// Every second group is entries-aware. The last one is cut.
fn group(group: u32) -> Group {
    let total = TOTAL as f64;
    let options = if group == 63 {
        flat::limits(0.0, total / 64.0)
    } else {
        Options { min_size: Some(2.0 * total), ..Options::default() }
    };
    let priority = if group == 63 { 0 } else { 1 + group % 4 };
    let entries_aware = Some(group % 2 == 0);
    Group { options, priority: Some(priority), entries_aware, ..Group::default() }
}

/// Sixteen records for each module, one less in all, no two of a module side by side.
pub fn scattered(count: u32) -> Vec<Record> {
    let next = |record: u32| if record + count <= RECORDS { record + count } else { 0 };
    let record = |record: u32| Record { module: drawn(62, record) % count, next: next(record) };
    (1..=RECORDS).map(record).collect()
}

/// Each module begins with record 1. One of them is matched.
pub fn shared_chain(count: u32) -> Build {
    let mut build = flat::plain(count);
    build.records = chained(count);
    build.modules.iter_mut().for_each(|module| module.first_record = 1);
    build.answers[0][1..].fill(0);
    build
}

/// One chain of all records, which names every module.
pub fn chained(count: u32) -> Vec<Record> {
    let next = |record: u32| if record < RECORDS { record + 1 } else { 0 };
    let record = |record: u32| Record { module: drawn(63, record) % count, next: next(record) };
    (1..=RECORDS).map(record).collect()
}
