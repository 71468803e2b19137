//! Document 01's two tables of refusals, and those of notes 1 and 4: of the numbers a call tests, the lowest that
//! applies.

use std::collections::BTreeSet;

use text::{
    Count, Filter, Group, Options, Table,
    tables::{BuildTables, CaptureTables, CutTables, MergeTables},
};

use crate::{
    capture::eligible,
    chunks::passes,
    id, row,
    rules::{Level, ReadingFault as F, Rules, SOUND, Setting},
};

mod name;

pub use name::name;

/// The limits of the counts.
pub const MODULES: u64 = 4_096;
pub const GROUPS: u64 = 64;
pub const ENTRIES: u64 = 256;
pub const NAMES: u64 = 65_535;
pub const RECORDS: u64 = 65_535;
pub const CHUNKS_ON_ENTRY: u64 = 65_535;

/// The longest id in bytes, and the largest total of sizes.
pub const ID_BYTES: usize = 1_024;
pub const TOTAL: u128 = 1 << 53;

/// A number and whether it applies. A test may rely on all lower ones that stand before it.
type Test<'a> = (u32, &'a dyn Fn() -> bool);

/// The first number that applies; the tests stand in ascending order.
fn lowest(tests: &[Test<'_>]) -> Option<u32> {
    tests.iter().find(|(_, applies)| applies()).map(|(number, _)| *number)
}

/// The same by other rules, which may exchange two neighbours.
fn lowest_by(rules: Rules, tests: &mut [Test<'_>]) -> Option<u32> {
    if let Some(lower) = rules.exchanged() {
        tests.swap(lower as usize - 1, lower as usize);
    }
    lowest(tests).map(|number| rules.number(number))
}

/// Similarity tests 3.
pub fn similarity(left: &[u8], right: &[u8]) -> Option<u32> {
    lowest(&[(3, &|| left.len() > ID_BYTES || right.len() > ID_BYTES)])
}

/// Cut tests 1, 2, 3, 6, 8.
pub fn cut(tables: &CutTables) -> Option<u32> {
    let CutTables { n, minimum, maximum, ids, offsets, sizes } = tables;
    lowest(&[
        (1, &|| *n > MODULES),
        (2, &|| offsets.len() as u64 != n + 1 || sizes.len() as u64 != *n),
        (3, &|| bad_ids(ids, offsets, SOUND)),
        (6, &|| exceeds(sizes.iter().copied(), TOTAL)),
        (8, &|| minimum.is_nan() || maximum.is_nan()),
    ])
}

/// Capture tests 1, 2, 7, 9 (flags), 10 (start), 12, 13 (N words).
pub fn capture(tables: &CaptureTables) -> Option<u32> {
    let CaptureTables { n, d, first, dep_module, dep_next, flags, start, .. } = tables;
    let [marks, scratch] = tables.areas.map(|length| length as u64);
    lowest(&[
        (1, &|| *n > MODULES || *d > RECORDS),
        (2, &|| {
            lengths_differ(&[flags.len(), first.len()], *n)
                || lengths_differ(&[dep_module.len(), dep_next.len()], d + 1)
        }),
        (7, &|| {
            let (module, next) = (dep_module, dep_next);
            bad_records(*n, *d, &Dependencies { flags, first, module, next }, SOUND)
        }),
        (9, &|| flags.iter().any(|flags| *flags > 7)),
        (10, &|| u64::from(*start) >= *n),
        (12, &|| marks < *n),
        (13, &|| scratch < *n),
    ])
}

/// Filter tests 6 (that size) and 8.
pub fn filter(filter: &Filter) -> Option<u32> {
    lowest(&[
        (6, &|| exceeds([filter.size], TOTAL)),
        (8, &|| any_nan(&[filter.min_module_size, filter.max_module_size])),
    ])
}

/// Merge tests 1, 2, 6, 8, 9 (bits), 12.
pub fn merge(tables: &MergeTables) -> Option<u32> {
    let MergeTables { k, e, threshold, sizes, bits, areas } = tables;
    lowest(&[
        (1, &|| *k > MODULES || *e > ENTRIES),
        (2, &|| sizes.len() as u64 != *k || bits.len() as u64 != 4 * k),
        (6, &|| exceeds(sizes.iter().copied(), TOTAL)),
        (8, &|| threshold.is_nan()),
        (9, &|| bad_bits(bits, *e, SOUND)),
        (12, &|| areas.iter().any(|length| (*length as u64) < *k)),
    ])
}

/// Chunks tests all.
pub fn chunks(tables: &BuildTables, rules: Rules) -> Option<u32> {
    let flags = &tables.flags;
    let part = |number: u32| taking_part(tables, number, rules);
    lowest_by(
        rules,
        &mut [
            (1, &|| count_above(tables, rules)),
            (2, &|| bad_lengths(tables, rules)),
            (3, &|| bad_ids(&tables.ids, &tables.offsets, rules)),
            (4, &|| share(part(4).map(|m| id(&tables.ids, &tables.offsets, m)))),
            (5, &|| share(part(5).map(|m| tables.orders[m]))),
            (6, &|| exceeds(part(6).map(|m| tables.sizes[m]), largest_total(rules))),
            (7, &|| {
                let BuildTables { n, d, flags, first, .. } = tables;
                let (module, next) = (&tables.dep_module, &tables.dep_next);
                bad_records(*n, *d, &Dependencies { flags, first, module, next }, rules)
            }),
            (8, &|| nan_given(tables, rules)),
            (9, &|| bad_flags(flags, rules) || bad_bits(&tables.bits, tables.e, rules)),
            (10, &|| bad_answer(tables, rules)),
            (11, &|| tables.count_on_entry > most_on_entry(rules)),
            (12, &|| short_output(tables, rules)),
            (13, &|| {
                let spare = u64::from(rules.has(F::ShortScratch));
                (tables.areas[8] as u64) + spare < scratch_need(tables, rules)
            }),
        ],
    )
}

/// 1, of a build.
fn count_above(tables: &BuildTables, rules: Rules) -> bool {
    let BuildTables { n, g, e, k, d, .. } = tables;
    *n > rules.limit(Count::N, MODULES)
        || *g > rules.limit(Count::G, GROUPS)
        || *e > rules.limit(Count::E, ENTRIES)
        || *k > rules.limit(Count::K, NAMES)
        || *d > rules.limit(Count::D, RECORDS)
}

/// 2, of a build.
fn bad_lengths(tables: &BuildTables, rules: Rules) -> bool {
    let BuildTables { n, g, d, .. } = tables;
    let differs = |table, length, wanted| rules.length_differs(table, length, wanted);
    differs(Table::Flags, tables.flags.len(), *n)
        || differs(Table::Sizes, tables.sizes.len(), *n)
        || differs(Table::Orders, tables.orders.len(), *n)
        || differs(Table::Shares, tables.shares.len(), *n)
        || differs(Table::Tags, tables.tags.len(), *n)
        || differs(Table::Bits, tables.bits.len(), 4 * n)
        || differs(Table::Offsets, tables.offsets.len(), n + 1)
        || differs(Table::First, tables.first.len(), *n)
        || differs(Table::DepModule, tables.dep_module.len(), d + 1)
        || differs(Table::DepNext, tables.dep_next.len(), d + 1)
        || differs(Table::Groups, tables.groups.len(), *g)
        || bad_group_length(tables)
        || differs(Table::Answers, tables.answers.len(), g * n)
}

/// 2, of a table of groups that isn't as long as the others.
fn bad_group_length(tables: &BuildTables) -> bool {
    let apart = |length: &&usize| **length != tables.groups.len();
    tables.group_lengths.iter().filter(apart).any(|length| *length as u64 != tables.g)
}

fn lengths_differ(lengths: &[usize], wanted: u64) -> bool {
    lengths.iter().any(|length| *length as u64 != wanted)
}

/// 3: an offset falls or passes the end, or an id is too long.
fn bad_ids(ids: &[u8], offsets: &[u32], rules: Rules) -> bool {
    let longest =
        ID_BYTES + usize::from(rules.has(F::IdLonger)) - usize::from(rules.has(F::IdShorter));
    let falls = |pair: &[u32]| pair[1] < pair[0] && !rules.has(F::OffsetFalls);
    let bad_pair = |pair: &[u32]| falls(pair) || pair[1].saturating_sub(pair[0]) as usize > longest;
    let past_end = |offset: &u32| *offset as usize > ids.len();
    offsets.windows(2).any(bad_pair)
        || offsets.iter().any(past_end) && !rules.has(F::OffsetPastEnd)
        || rules.has(F::OffsetsFromZero) && offsets[0] != 0
        || rules.has(F::OffsetsToEnd) && offsets[offsets.len() - 1] as usize != ids.len()
}

/// The modules that 4, 5 and 6 look at: the normal included ones.
fn taking_part(tables: &BuildTables, number: u32, rules: Rules) -> impl Iterator<Item = usize> {
    (0..tables.flags.len()).filter(move |m| rules.takes_part(number, tables.flags[*m]))
}

/// 4 and 5: two are the same.
fn share<T: Ord>(keys: impl Iterator<Item = T>) -> bool {
    let mut seen = BTreeSet::new();
    keys.into_iter().any(|key| !seen.insert(key))
}

/// 6: the true sum is above the largest total.
fn exceeds(sizes: impl IntoIterator<Item = u64>, largest: u128) -> bool {
    sizes.into_iter().map(u128::from).sum::<u128>() > largest
}

/// 6: 2^53.
fn largest_total(rules: Rules) -> u128 {
    TOTAL + u128::from(rules.has(F::TotalHigher)) - u128::from(rules.has(F::TotalLower))
}

/// The tables that 7 looks at.
struct Dependencies<'a> {
    flags: &'a [u8],
    first: &'a [u32],
    module: &'a [u32],
    next: &'a [u32],
}

/// 7: first records, records 1 to D, and chains.
fn bad_records(n: u64, d: u64, tables: &Dependencies<'_>, rules: Rules) -> bool {
    let Dependencies { flags, first, module, next } = *tables;
    let looks_at = |fault, m: usize| !rules.has(fault) || eligible(flags[m]);
    let bad_first = |m: usize| {
        let tested = !rules.has(F::FirstUntested) && looks_at(F::FirstIfEligible, m);
        tested && u64::from(first[m]) > d
    };
    let least = n + u64::from(rules.has(F::RecordModuleAtLimit));
    let bad_record = |r: usize| {
        !rules.has(F::NextUntested) && u64::from(next[r]) > d
            || !rules.has(F::RecordModuleUntested) && u64::from(module[r]) >= least
    };
    let within = d.saturating_sub(u64::from(rules.has(F::ChainLower)));
    let endless = |m: usize| {
        let tested = !rules.has(F::ChainUntested) && looks_at(F::ChainIfEligible, m);
        tested && !ends(first[m], next, within)
    };
    let on_chain = |r: usize| first.iter().any(|first| walk(*first, next).contains(&r));
    let passed_over = |r: usize| rules.has(F::OffChainUntested) && !on_chain(r);
    let from = usize::from(!rules.has(F::RecordZeroTested));
    (0..first.len()).any(bad_first)
        || (from..next.len()).any(|r| bad_record(r) && !passed_over(r))
        || (0..first.len()).any(endless)
}

/// The records from one on, as far as there are any.
fn walk(first: u32, next: &[u32]) -> Vec<usize> {
    let follow = |r: &usize| next.get(*r).map(|next| *next as usize);
    std::iter::successors(Some(first as usize), follow).take(next.len()).collect()
}

/// Whether a chain comes to its zero within `d` records.
fn ends(first: u32, next: &[u32], d: u64) -> bool {
    let mut record = first;
    for _ in 0..d {
        if record == 0 {
            return true;
        }
        record = next[record as usize];
    }
    record == 0
}

/// 8, of a build: every given limit and threshold, used or not.
fn nan_given(tables: &BuildTables, rules: Rules) -> bool {
    let nan_option = |level: Level, options: &Options| {
        rules.is_nan(level, Setting::MinSize, options.min_size)
            || rules.is_nan(level, Setting::MaxSize, options.max_size)
            || rules.is_nan(level, Setting::MinModuleSize, options.min_module_size)
            || rules.is_nan(level, Setting::MaxModuleSize, options.max_module_size)
    };
    let nan_group = |(at, group): (usize, &Group)| {
        let is_last = at + 1 == tables.groups.len();
        let passed_over = rules.has(F::NanNotInLastGroup) && is_last
            || rules.has(F::NanOnlyInLastGroup) && !is_last;
        let unused = group.entries_aware != Some(true);
        let tested = !(rules.has(F::NanThresholdIfAware) && unused);
        let nan_threshold = rules.is_nan(Level::Group, Setting::Threshold, group.threshold);
        !passed_over && (nan_option(Level::Group, &group.options) || tested && nan_threshold)
    };
    nan_option(Level::Global, &tables.options) || tables.groups.iter().enumerate().any(nan_group)
}

fn any_nan(limits: &[Option<f64>]) -> bool {
    limits.iter().any(|limit| limit.is_some_and(f64::is_nan))
}

/// 9: a flag byte above 7.
fn bad_flags(flags: &[u8], rules: Rules) -> bool {
    let least =
        8 + u8::from(rules.has(F::FlagsEightAccepted)) - u8::from(rules.has(F::FlagsSevenRefused));
    !rules.has(F::FlagsUntested) && flags.iter().any(|flags| *flags >= least)
}

/// 9: an entry bit at or above E.
fn bad_bits(bits: &[u64], entries: u64, rules: Rules) -> bool {
    let held = |words: [u64; 4], bit: usize| words[bit / 64] >> (bit % 64) & 1 == 1;
    let tested = |bit: usize| !rules.has(F::BitsUntested(bit / 64));
    let from = usize::try_from(entries).unwrap_or(256);
    let passed_over = from.is_multiple_of(64) && rules.has(F::BitAtWord(from / 64));
    let from = from + usize::from(passed_over || rules.has(F::BitAtLimit));
    (0..bits.len() / 4).any(|k| (from..256).any(|bit| tested(bit) && held(row(bits, k), bit)))
}

/// 10: an answer of K+2 or more.
fn bad_answer(tables: &BuildTables, rules: Rules) -> bool {
    let (n, all) = (tables.n as usize, tables.answers.len());
    let from = if rules.has(F::AnswersOfLastGroup) { all.saturating_sub(n) } else { 0 };
    let to = if rules.has(F::AnswersOfFirstGroup) { n.min(all) } else { all };
    let least =
        tables.k + 2 + u64::from(rules.has(F::AnswerHigher)) - u64::from(rules.has(F::AnswerLower));
    tables.answers[from..to].iter().any(|answer| u64::from(*answer) >= least)
}

/// 11: the largest count on entry.
fn most_on_entry(rules: Rules) -> u64 {
    CHUNKS_ON_ENTRY + u64::from(rules.has(F::EntryCountHigher))
        - u64::from(rules.has(F::EntryCountLower))
}

/// 12, of a build; that of note 4 is among the areas.
fn short_output(tables: &BuildTables, rules: Rules) -> bool {
    let spare = |fault| u64::from(rules.has(fault));
    let [chunk_of, next_of, first, group, name, size, bits, mark, _] =
        tables.areas.map(|length| length as u64);
    let records = spare(F::ShortRecords);
    chunk_of + spare(F::ShortChunkOf) < tables.n
        || next_of + spare(F::ShortNextOf) < tables.n
        || [first, group, name, size].into_iter().any(|length| length + records < tables.n)
        || bits + 4 * records < 4 * tables.n
        || mark + records + spare(F::ShortMarkOf) < tables.n
}

/// 13: P×N + 32×N words.
pub fn scratch_need(tables: &BuildTables, rules: Rules) -> u64 {
    let words = 32 + u64::from(rules.has(F::Words33)) - u64::from(rules.has(F::Words31));
    (pairs(tables, rules) + words) * tables.n
}

/// P: the distinct (group, name) pairs among answers of 2 or more.
fn pairs(tables: &BuildTables, rules: Rules) -> u64 {
    let n = tables.n.max(1) as usize;
    let least = if rules.has(F::PairsUnnamed) { 1 } else { 2 };
    let counts = |place: usize| {
        (!rules.has(F::PairsEligible) || eligible(tables.flags[place % n]))
            && (!rules.has(F::PairsFiltered) || passes(tables, place / n, place % n, SOUND))
    };
    let named = tables.answers.iter().enumerate().filter(|(_, answer)| **answer >= least);
    let named = named.filter(|(place, _)| counts(*place));
    if rules.has(F::PairsRepeated) {
        return named.count() as u64;
    }
    let by_name = rules.has(F::PairsByName);
    let pair = |(place, answer): (usize, &u32)| (if by_name { 0 } else { place / n }, *answer);
    named.map(pair).collect::<BTreeSet<_>>().len() as u64
}
