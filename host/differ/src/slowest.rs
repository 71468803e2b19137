//! The accepted builds that take the library longest, as far as they are known.

use std::{
    fs,
    time::{Duration, Instant},
};

use chunklist::ReadyBuild;
use text::{Build, Chunks, Damage, Group, Module, Options, Record};

use crate::generate::{
    largest::{MODULES, RECORDS},
    records::index,
};

/// A build that takes long, by its name and the number of sets that it has.
pub type Slow = (&'static str, usize, Build);

/// The builds, each with few sets and with more of them, so that what one set takes shows.
pub fn builds() -> Vec<Slow> {
    let mut all = vec![("ids of 1,024 bytes, cut one by one", 1, long_ids())];
    for sets in [1, 4, 64] {
        all.push(("one chain of 65,535 records for all modules", sets, one_chain(sets)));
        all.push(("4,096 entry bits that join one by one", sets, many_kinds(sets)));
        let mut both = one_chain(sets);
        different_bits(&mut both);
        all.push(("both", sets, both));
    }
    all.push(("a name for each module in 64 groups", 64 * MODULES, many_names()));
    all
}

/// What a call takes.
pub struct Took {
    pub wall: Duration,
    /// Of the processor, if the system tells.
    pub processor: Option<Duration>,
}

/// What the call alone takes, or the number of its refusal.
pub fn timed(build: Build) -> Result<Took, u32> {
    let mut ready = ReadyBuild::new(&Chunks { build, damage: Damage::default() });
    let (begin, before) = (Instant::now(), processor());
    let number = ready.call();
    let (wall, after) = (begin.elapsed(), processor());
    let processor = after.zip(before).map(|(after, before)| after - before);
    if number == 0 { Ok(Took { wall, processor }) } else { Err(number) }
}

/// What this thread has taken of the processor so far.
fn processor() -> Option<Duration> {
    let text = fs::read_to_string("/proc/thread-self/schedstat").ok()?;
    text.split(' ').next()?.parse().ok().map(Duration::from_nanos)
}

/// Modules without dependencies, in a group for each of so many sets that are all dropped, so that
/// no module leaves any of them.
fn dropped(sets: usize) -> Build {
    let module = |number: usize| Module {
        flags: 3,
        size: 1,
        order: index(MODULES - number),
        bits: [1, 0, 0, 0],
        id: format!("m{number:04}").into_bytes(),
        ..Module::default()
    };
    let min_size = Some(f64::INFINITY);
    let group = Group { options: Options { min_size, ..Options::default() }, ..Group::default() };
    Build {
        entries: 256,
        names: 65_535,
        modules: (0..MODULES).map(module).collect(),
        groups: vec![group; sets],
        answers: vec![vec![2; MODULES]; sets],
        ..Build::default()
    }
}

/// Every module names every other one along one chain of all records.
fn one_chain(sets: usize) -> Build {
    let mut build = dropped(sets);
    let record = |at: usize| Record { module: index(at % MODULES), next: index(at) };
    build.records = (0..RECORDS).map(record).collect();
    for module in &mut build.modules {
        module.first_record = index(RECORDS);
    }
    build
}

/// Each module has bits of its own, and all subgroups join.
fn many_kinds(sets: usize) -> Build {
    let mut build = dropped(sets);
    build.options.recursive = Some(false);
    different_bits(&mut build);
    build
}

fn different_bits(build: &mut Build) {
    for (number, module) in (1_u64..).zip(&mut build.modules) {
        let word = number.wrapping_mul(0x9e37_79b9_7f4a_7c15);
        module.bits = [number, word, word.rotate_left(17), word.rotate_left(31)];
    }
    for group in &mut build.groups {
        group.entries_aware = Some(true);
        group.threshold = Some(f64::INFINITY);
    }
}

/// Ids of 1,024 bytes in one set. All similarities tie, and only a cut that takes one module off has
/// a side within the maximum, so every module but one is cut off by itself.
fn long_ids() -> Build {
    let mut build = dropped(1);
    build.groups[0].options = Options { max_size: Some(1.0), ..Options::default() };
    for (number, module) in (0_u32..).zip(&mut build.modules) {
        module.id = vec![b'a'; 1_022];
        module.id.extend([number / 64, number % 64].map(|digit| b'@' + digit as u8));
    }
    build
}

/// Each module has a name of its own in each group, and no dependencies.
fn many_names() -> Build {
    let mut build = dropped(64);
    build.answers = vec![(0..index(MODULES)).map(|module| 2 + module).collect(); 64];
    build
}
