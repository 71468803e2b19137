//! Areas as long as the needs say are enough and one item less is refused; stacks are enough.

use std::thread;

use gentropi::{
    Chains, EntryBits, Group, GroupBuf, IdBuf, Options, Refusal,
    flag::ELIGIBLE,
    limits,
    needs::{self, Call},
    raw,
};

/// Capture among three modules, with areas of so many items.
fn capture(marks: usize, scratch: usize) -> Result<(), Refusal> {
    let chains = Chains::from_lists([vec![1], vec![2], vec![]]);
    let (mut marks, mut scratch) = (vec![0; marks], vec![0; scratch]);
    gentropi::capture(chains.modules(&[ELIGIBLE; 3]), 0, true, &mut marks, &mut scratch)
}

#[test]
fn a_capture_needs_what_is_said() {
    let items = needs::capture_items(3);
    assert_eq!(capture(items, items), Ok(()));
    assert_eq!(capture(items - 1, items), Err(Refusal::AREA));
    assert_eq!(capture(items, items - 1), Err(Refusal::SCRATCH));
}

/// Merge of two subgroups, with areas of so many items; bits in words.
fn merge([numbers, sizes, bits]: [usize; 3]) -> u32 {
    let tables = raw::MergeTables {
        k: 2,
        entries: 2,
        sizes: &[5, 7],
        bits: &[1, 0, 0, 0, 2, 0, 0, 0],
        threshold: 6.0,
    };
    let (mut numbers, mut sizes, mut bits) = (vec![0; numbers], vec![0; sizes], vec![0; bits]);
    let areas = raw::MergeAreas { numbers: &mut numbers, sizes: &mut sizes, bits: &mut bits };
    raw::merge(&tables, areas)
}

#[test]
fn a_merge_needs_what_is_said() {
    let items = needs::merge_items(2);
    let needed = [items, items, needs::bits_words(items)];
    assert_eq!(merge(needed), 0);
    for area in 0..3 {
        let mut short = needed;
        short[area] -= 1;
        assert_eq!(merge(short), 12, "area {area}");
    }
}

/// A build with tables of its own.
struct Owned {
    ids: IdBuf,
    chains: Chains,
    groups: GroupBuf,
    flags: Vec<u8>,
    sizes: Vec<u64>,
    orders: Vec<u32>,
    bits: Vec<EntryBits>,
    tags: Vec<u64>,
    answers: Vec<u32>,
}

impl Owned {
    /// So many modules and groups; every second group is entries-aware, and each names by threes.
    fn new(modules: u32, groups: u32) -> Self {
        let names = |group: u32| (0..modules).map(move |module| 2 + (module + group) / 3);
        let options = Options { min_size: Some(1.0), max_size: Some(40.0), ..Options::default() };
        let group = |group: u32| Group {
            options,
            entries_aware: group.is_multiple_of(2),
            threshold: 20.0,
            ..Group::default()
        };
        Self {
            ids: (0..modules).map(|module| format!("src/{}/{module}", module % 7)).collect(),
            chains: Chains::from_lists(
                (0..modules)
                    .map(|module| (1..=15).map(move |step| (module + step * step) % modules)),
            ),
            groups: (0..groups).map(group).collect(),
            flags: vec![ELIGIBLE; modules as usize],
            sizes: (0..modules).map(|module| 1 + u64::from(module % 97)).collect(),
            orders: (0..modules).map(|module| (module * 1_103 + 7) % modules).collect(),
            bits: (0..modules)
                .map(|module| [1 << (module % 64), 0, 1 << (module % 5), 0])
                .collect(),
            tags: vec![0; modules as usize],
            answers: (0..groups).flat_map(names).collect(),
        }
    }

    fn build(&self) -> gentropi::Build<'_> {
        gentropi::Build {
            modules: self.chains.modules(&self.flags),
            ids: self.ids.as_ids(),
            sizes: &self.sizes,
            orders: &self.orders,
            shares: &self.orders,
            tags: &self.tags,
            bits: &self.bits,
            entries: limits::ENTRIES,
            names: limits::NAMES,
            options: Options::default(),
            groups: &self.groups,
            answers: &self.answers,
            on_entry: 0,
        }
    }
}

/// The call with areas of so many items, in the order of the call; bits in words.
fn chunks(build: &gentropi::Build<'_>, lengths: [usize; 9]) -> u32 {
    let [chunk_of, next_of, first_of, group_of, name_of, size_of, bits_of, mark_of, scratch] =
        lengths;
    let areas = raw::ChunksAreas {
        chunk_of: &mut vec![9; chunk_of],
        next_of: &mut vec![9; next_of],
        first_of: &mut vec![9; first_of],
        group_of: &mut vec![9; group_of],
        name_of: &mut vec![9; name_of],
        size_of: &mut vec![9.0; size_of],
        bits_of: &mut vec![9; bits_of],
        mark_of: &mut vec![9; mark_of],
        scratch: &mut vec![9; scratch],
        count: &mut 0,
    };
    raw::chunks(&build.tables(), areas)
}

/// The lengths that a build needs.
fn needed(build: &gentropi::Build<'_>) -> [usize; 9] {
    let n = needs::chunks_items(build.modules.flags.len());
    [n, n, n, n, n, n, needs::bits_words(n), n, build.scratch_words()]
}

#[test]
fn a_build_needs_what_is_said() {
    let owned = Owned::new(20, 3);
    let build = owned.build();
    let needed = needed(&build);
    assert_eq!(chunks(&build, needed), 0);
    for area in 0..9 {
        let mut short = needed;
        short[area] -= 1;
        let number = if area == 8 { 13 } else { 12 };
        assert_eq!(chunks(&build, short), number, "area {area}");
    }
}

/// What a thread takes besides the call: its start, and the areas' descriptions on the way.
const BESIDES: usize = 32 * 1024;

/// Makes a call on a thread that has as much stack as the call is said to take.
fn on_its_stack<T: Send>(call: Call, work: impl FnOnce() -> T + Send) -> T {
    let stack = needs::stack_bytes(call) + BESIDES;
    thread::scope(|scope| {
        let thread = thread::Builder::new().stack_size(stack).spawn_scoped(scope, work);
        thread.expect("a thread").join().expect("the call ends")
    })
}

#[test]
fn the_stack_is_enough_for_the_largest_build() {
    let owned = Owned::new(4_096, 16);
    let build = owned.build();
    let chunks = on_its_stack(Call::Chunks, || gentropi::chunks_to_vec(&build));
    let chunks = chunks.expect("the build is accepted");
    assert!(chunks.len() > 100, "{} chunks", chunks.len());
}

#[test]
fn the_stack_is_enough_for_the_largest_leaves() {
    let owned = Owned::new(4_096, 0);
    let modules = owned.chains.modules(&owned.flags);
    let captured = on_its_stack(Call::Capture, || gentropi::capture_to_vec(modules, 0, true));
    assert_eq!(captured.map(|marks| marks.len()), Ok(4_096));
    let subgroups =
        gentropi::Subgroups { entries: limits::ENTRIES, sizes: &owned.sizes, bits: &owned.bits };
    let merged = on_its_stack(Call::Merge, || gentropi::merge_to_vec(subgroups, 1e6));
    assert_eq!(merged.map(|merged| merged.len()), Ok(4_096));
    let ids = owned.ids.as_ids();
    let cut = on_its_stack(Call::Cut, || gentropi::cut(ids, &owned.sizes, 10.0, 100.0));
    assert!(cut.is_ok_and(|cut| cut.point().is_some()));
    let names: IdBuf = (0..limits::NAMES).map(|number| format!("{number:05}")).collect();
    let entries: IdBuf = (0..limits::ENTRIES).map(|entry| format!("entry {entry}")).collect();
    let chunk = gentropi::ChunkToName {
        group_names: names.as_ids(),
        entry_names: entries.as_ids(),
        number: 65_534,
        entries_aware: true,
        bits: [u64::MAX; 4],
        hash: b"01234567",
    };
    let named = on_its_stack(Call::Name, || gentropi::chunk_name_to_vec(&chunk));
    assert_eq!(named.map(|name| name.len()), Ok(limits::CHUNK_NAME_BYTES));
    let id = [7; limits::ID_BYTES];
    assert_eq!(on_its_stack(Call::Similarity, || gentropi::similarity(&id, &id)), Ok(10_240));
}
