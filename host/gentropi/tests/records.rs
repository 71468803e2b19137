//! Where dependency records lie is nothing to the list: side by side, scattered, so that a run lays
//! them anew, or shared, so that there is no room to. Each call has the stack that is said.

use std::thread;

use gentropi::{
    Build, Chunk, Group, GroupBuf, IdBuf, Modules, Options, chunks_to_vec,
    flag::ELIGIBLE,
    needs::{self, Call},
};

const MODULES: u32 = 1_200;

/// How many dependencies a module has.
const EACH: u32 = 12;

/// What a thread takes besides the call.
const BESIDES: usize = 32 * 1024;

/// Dependency records: the first of each module, then the module and the next of each.
struct Records {
    first: Vec<u32>,
    dependency: Vec<u32>,
    next: Vec<u32>,
}

/// The module that is named at a place of a module's chain.
fn named(module: u32, place: u32) -> u32 {
    if place < EACH {
        (module * 5 + place * place * 7 + 3) % MODULES
    } else {
        common_module(place - EACH)
    }
}

/// The module that all modules name at a place behind their own.
fn common_module(place: u32) -> u32 {
    place * 31 % MODULES
}

impl Records {
    /// Room for so many records.
    fn new(count: u32) -> Self {
        let zeros = vec![0; count as usize + 1];
        Self { first: vec![0; MODULES as usize], dependency: zeros.clone(), next: zeros }
    }

    /// Puts a record before those of a module.
    fn add(&mut self, module: u32, record: u32, named: u32) {
        self.dependency[record as usize] = named;
        self.next[record as usize] = self.first[module as usize];
        self.first[module as usize] = record;
    }

    /// The records of each module at numbers that are told for its places, before those that
    /// all share.
    fn add_own(&mut self, each: u32, number: impl Fn(u32, u32) -> u32) {
        for module in 0..MODULES {
            (0..each).for_each(|place| {
                self.add(module, number(module, place), named(module, place));
            });
        }
    }

    /// Those of one module side by side.
    fn side_by_side(each: u32) -> Self {
        let mut records = Self::new(MODULES * each);
        records.add_own(each, |module, place| module * each + place + 1);
        records
    }

    /// No two of a module side by side. Behind the first `EACH` dependencies of each come the
    /// others, which all modules have, on one chain for all.
    fn scattered(each: u32) -> Self {
        let common = each - EACH;
        let mut records = Self::new(MODULES * EACH + common);
        for place in 0..common {
            records.add(0, MODULES * EACH + 1 + place * 7 % common.max(1), common_module(place));
        }
        let head = records.first[0];
        records.first.fill(head);
        records.add_own(EACH, |module, place| 1 + place * MODULES + (module * 7) % MODULES);
        records
    }
}

/// The list of so many groups over these records, on a thread with the stack that a call needs.
fn list(records: &Records, groups: u32) -> Vec<Chunk> {
    let count = MODULES as usize;
    let (flags, zeros) = (vec![ELIGIBLE; count], vec![0; count]);
    let ids: IdBuf = (0..MODULES).map(|module| format!("src/{}/{module}", module % 9)).collect();
    let sizes: Vec<u64> = (0..MODULES).map(|module| 1 + u64::from(module % 97)).collect();
    let orders: Vec<u32> = (0..MODULES).map(|module| module * 7 % MODULES).collect();
    let bits: Vec<[u64; 4]> = (0..MODULES).map(|module| [1 << (module % 11), 0, 0, 0]).collect();
    let group = |group: u32| Group {
        options: Options {
            min_size: Some(f64::from(group % 3) * 20_000.0),
            max_size: Some(6_000.0),
            ..Options::default()
        },
        entries_aware: group.is_multiple_of(2),
        ..Group::default()
    };
    let groups_of: GroupBuf = (0..groups).map(group).collect();
    let starts =
        |group: u32| (0..MODULES).map(move |module| if module % 150 == group { 2 } else { 0 });
    let answers: Vec<u32> = (0..groups).flat_map(starts).collect();
    let build = Build {
        modules: Modules {
            flags: &flags,
            first: &records.first,
            dependency: &records.dependency,
            next: &records.next,
        },
        ids: ids.as_ids(),
        sizes: &sizes,
        orders: &orders,
        shares: &orders,
        tags: &zeros,
        bits: &bits,
        entries: 16,
        names: 1,
        options: Options::default(),
        groups: &groups_of,
        answers: &answers,
        on_entry: 0,
    };
    let stack = needs::stack_bytes(Call::Chunks) + BESIDES;
    thread::scope(|scope| {
        let work = || chunks_to_vec(&build);
        let thread = thread::Builder::new().stack_size(stack).spawn_scoped(scope, work);
        thread.expect("a thread").join().expect("the call ends").expect("the build is accepted")
    })
}

#[test]
fn scattered_records_give_the_list_of_records_side_by_side() {
    for groups in [1, 15, 16, 40] {
        let here = list(&Records::side_by_side(EACH), groups);
        assert!(here.len() > 3, "{} chunks", here.len());
        assert_eq!(list(&Records::scattered(EACH), groups), here, "{groups} groups");
    }
}

/// With 40 records that all share there is room for each chain by itself if all 65,536 words may be
/// taken, and none if only as many as there are records.
#[test]
fn shared_records_give_the_list_of_records_of_their_own() {
    for groups in [15, 16, 40] {
        let here = list(&Records::side_by_side(EACH + 40), groups);
        assert_eq!(list(&Records::scattered(EACH + 40), groups), here, "{groups} groups");
        assert_ne!(list(&Records::scattered(EACH), groups), here, "{groups} groups");
    }
}
