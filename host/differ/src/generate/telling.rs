//! Small whole builds, accepted and refused ones, each made to tell one rule of the papers from a
//! reading that gets it wrong.

mod marks;
mod subgroups;

use text::{Build, Chunks, Count, Damage, Group, Module, Options, Question, Record, Table, tables};

/// All of them.
pub fn builds() -> Vec<Question> {
    let mut all = Vec::new();
    all.extend(counts());
    all.extend(lengths());
    all.extend(ids());
    all.extend(taking_part());
    all.extend(records());
    all.extend(nans());
    all.extend(flags_bits_and_answers());
    all.extend(areas());
    all.extend(neighbours());
    all.extend(settings());
    all.extend(entry_words());
    all.into_iter().map(question).chain(orders()).chain(marks()).collect()
}

/// Those that tell the order of subgroups.
pub fn orders() -> Vec<Question> {
    subgroups::order().into_iter().map(question).collect()
}

/// Those that tell the mark of a chunk.
pub fn marks() -> Vec<Question> {
    marks::marked().into_iter().map(question).collect()
}

fn question(chunks: Chunks) -> Question {
    Question::Chunks(Box::new(chunks))
}

fn sound(build: Build) -> Chunks {
    Chunks { build, damage: Damage::default() }
}

fn damaged(build: Build, damage: Damage) -> Chunks {
    Chunks { build, damage }
}

/// An eligible module.
fn module(id: &[u8], size: u64, order: u32) -> Module {
    Module { flags: 3, size, order, share_count: 1, id: id.to_vec(), ..Module::default() }
}

/// These modules, all of them with name 0 in each of these groups.
fn build(modules: Vec<Module>, groups: Vec<Group>) -> Build {
    let answers = vec![vec![2; modules.len()]; groups.len()];
    Build { entries: 0, names: 1, modules, groups, answers, ..Build::default() }
}

/// One module in one group.
fn one() -> Build {
    build(vec![module(b"a", 5, 0)], vec![Group::default()])
}

/// Two modules in one group, of which the first depends on the second.
fn two() -> Build {
    let first = Module { first_record: 1, ..module(b"a", 5, 0) };
    let mut build = build(vec![first, module(b"b", 3, 1)], vec![Group::default()]);
    build.records = vec![Record { module: 1, next: 0 }];
    build
}

/// 1: each count at its limit and one above.
fn counts() -> Vec<Chunks> {
    let limits = [
        (Count::N, 4_096),
        (Count::G, 64),
        (Count::E, 256),
        (Count::K, 65_535),
        (Count::D, 65_535),
    ];
    let mut all = Vec::new();
    for (count, limit) in limits {
        for build in [Build::default(), one()] {
            for value in [limit, limit + 1] {
                let counts = vec![(count, value)];
                all.push(damaged(build.clone(), Damage { counts, ..Damage::default() }));
            }
        }
    }
    all
}

/// 2: each table one longer and one shorter.
fn lengths() -> Vec<Chunks> {
    let mut all = Vec::new();
    for build in [one(), two()] {
        let (n, d) = (build.modules.len(), build.records.len());
        for (table, _) in Table::ALL {
            let length = match table {
                Table::Bits => 4 * n,
                Table::Offsets => n + 1,
                Table::DepModule | Table::DepNext => d + 1,
                Table::Groups => 1,
                _ => n,
            };
            for other in [length - 1, length + 1] {
                let lengths = vec![(table, other)];
                all.push(damaged(build.clone(), Damage { lengths, ..Damage::default() }));
            }
        }
    }
    all
}

/// 3: the longest id and one that is longer, and other offsets of two ids.
fn ids() -> Vec<Chunks> {
    let with_id = |length: usize| build(vec![module(&vec![b'a'; length], 5, 0)], Vec::new());
    let mut all = vec![sound(with_id(1_024)), sound(with_id(1_025))];
    for offsets in [[1, 1, 2], [0, 1, 1], [0, 1, 3], [0, 3, 3], [1, 0, 2], [0, 2, 1], [1, 2, 1]] {
        for flags in [3, 0] {
            let mut build = two();
            build.modules[0].flags = flags;
            let damage = Damage { offsets: Some(offsets.to_vec()), ..Damage::default() };
            all.push(damaged(build, damage));
        }
    }
    all
}

/// 7: records on a chain of each kind of module and on none, each with its numbers at the limit,
/// one past it and far past it, or in a circle.
fn records() -> Vec<Chunks> {
    let mut all = Vec::new();
    for flags in [3, 7, 0] {
        for first_record in 0..4 {
            for (module, next) in [(0, 0), (0, 1), (0, 2), (0, 3), (1, 0), (2, 0), (2, 1), (9, 0)] {
                let mut build = one();
                build.modules[0].flags = flags;
                build.modules[0].first_record = first_record;
                build.records = vec![Record { module, next }];
                all.push(sound(build.clone()));
                build.records.push(Record { module: 0, next: 0 });
                all.push(sound(build));
            }
        }
    }
    all
}

/// 4, 5 and 6: what two modules share, or add to, with the second of each kind.
fn taking_part() -> Vec<Chunks> {
    let mut all = Vec::new();
    for flags in [0, 1, 2, 3, 4, 5, 6, 7] {
        for second in [
            Module { flags, ..module(b"a", 3, 1) },
            Module { flags, ..module(b"b", 3, 0) },
            Module { flags, ..module(b"b", (1 << 53) - 4, 1) },
            Module { flags, ..module(b"b", (1 << 53) - 5, 1) },
        ] {
            all.push(sound(build(vec![module(b"a", 5, 0), second], vec![Group::default()])));
        }
    }
    all
}

/// 8: a NaN in each place of the global options, of the first group and of the last.
fn nans() -> Vec<Chunks> {
    let mut all = Vec::new();
    for options in only(f64::NAN) {
        all.push(sound(Build { options: options.clone(), ..Build::default() }));
        let group = Group { options, ..Group::default() };
        all.push(sound(build(Vec::new(), vec![group.clone()])));
        all.push(sound(build(Vec::new(), vec![group.clone(), Group::default()])));
        all.push(sound(build(Vec::new(), vec![Group::default(), group])));
    }
    for entries_aware in [None, Some(false), Some(true)] {
        let group = Group { entries_aware, threshold: Some(f64::NAN), ..Group::default() };
        all.push(sound(build(Vec::new(), vec![group.clone()])));
        all.push(sound(build(Vec::new(), vec![group, Group::default()])));
    }
    all
}

/// Options of which one limit is given.
fn only(limit: f64) -> [Options; 4] {
    let (none, given) = (Options::default(), Some(limit));
    [
        Options { min_size: given, ..none.clone() },
        Options { max_size: given, ..none.clone() },
        Options { min_module_size: given, ..none.clone() },
        Options { max_module_size: given, ..none },
    ]
}

/// 9, 10 and 11: at each limit and one past it.
fn flags_bits_and_answers() -> Vec<Chunks> {
    let mut all = Vec::new();
    let with = |change: &dyn Fn(&mut Build)| {
        let mut build = one();
        change(&mut build);
        sound(build)
    };
    for flags in [7, 8, 9, 11, 16, 128, 255] {
        all.push(with(&|build| build.modules[0].flags = flags));
    }
    for bit in [0_usize, 1, 63, 64, 65, 127, 128, 191, 192, 193, 255] {
        for entries in [0, bit as u64, bit as u64 + 1] {
            all.push(with(&|build| {
                build.modules[0].bits[bit / 64] = 1 << (bit % 64);
                build.entries = entries;
            }));
        }
    }
    for groups in [1, 2] {
        for at in 0..groups {
            for answer in [2, 3, 4, u32::MAX] {
                all.push(with(&|build| {
                    build.groups = vec![Group::default(); groups];
                    build.answers = vec![vec![0]; groups];
                    build.answers[at][0] = answer;
                }));
            }
        }
    }
    for count_on_entry in [1, 65_535, 65_536] {
        all.push(with(&|build| build.count_on_entry = count_on_entry));
        all.push(sound(Build { count_on_entry, ..Build::default() }));
    }
    all
}

/// 12 and 13: areas exactly full and each one short, over builds that tell how P is counted.
fn areas() -> Vec<Chunks> {
    let mut all = Vec::new();
    for build in pair_builds() {
        let n = build.modules.len();
        let full = vec![n, n, n, tables::scratch_need(&build)];
        for short in 0..5 {
            let mut lengths = full.clone();
            if let Some(length) = lengths.get_mut(short) {
                *length -= 1;
            }
            let damage = Damage { areas: Some(lengths), ..Damage::default() };
            all.push(damaged(build.clone(), damage));
        }
        all.extend(record_areas(&build));
    }
    all
}

/// 12: each area of chunk records one short alone, that of marks among them.
fn record_areas(build: &Build) -> Vec<Chunks> {
    let n = build.modules.len();
    let short = |area: usize| {
        let mut records = vec![n, n, n, n, 4 * n, n];
        records[area] -= 1;
        damaged(build.clone(), Damage { records: Some(records), ..Damage::default() })
    };
    (0..6).map(short).collect()
}

/// A named module that is assigned, has no name, doesn't pass, shares its name with another module
/// of its group or with one of another group.
fn pair_builds() -> Vec<Build> {
    let mut assigned = one();
    assigned.modules[0].flags = 7;
    let mut unnamed = one();
    unnamed.answers[0][0] = 1;
    let mut filtered = one();
    filtered.groups[0].mask = 1;
    let mut two_groups = one();
    two_groups.groups.push(Group::default());
    two_groups.answers.push(vec![2]);
    let mut two_names = two();
    two_names.names = 2;
    two_names.answers[0][1] = 3;
    vec![one(), assigned, unnamed, filtered, two_groups, two(), two_names]
}

/// Two conditions with neighbouring numbers apply to one build.
fn neighbours() -> Vec<Chunks> {
    (1..13).map(|lower| plant(plant(three(), lower + 1), lower)).collect()
}

/// Two eligible modules and one that takes no part.
fn three() -> Chunks {
    let outside = Module { flags: 0, ..module(b"c", 0, 2) };
    let modules = vec![module(b"a", 5, 0), module(b"b", 3, 1), outside];
    sound(build(modules, vec![Group::default()]))
}

/// Makes a condition apply, and no other if it can be helped.
fn plant(mut chunks: Chunks, number: u32) -> Chunks {
    let Chunks { build, damage } = &mut chunks;
    match number {
        1 => damage.counts.push((Count::E, 257)),
        2 => damage.lengths.push((Table::Tags, 2)),
        3 => damage.offsets = Some(vec![0, 1, 2, 4]),
        4 => build.modules[1].id = b"a".to_vec(),
        5 => build.modules[1].order = 0,
        6 => build.modules[0].size = 1 << 53,
        7 => build.modules[2].first_record = 1,
        8 => build.options.min_size = Some(f64::NAN),
        9 => build.modules[2].flags = 8,
        10 => build.answers[0][2] = 3,
        11 => build.count_on_entry = 65_536,
        12 => damage.areas = Some(vec![2, 3, 3, damage.areas.as_ref().map_or(99, |a| a[3])]),
        _ => damage.areas = Some(vec![3, 3, 3, 98]),
    }
    chunks
}

/// Each setting given globally, by the group, and by both.
fn settings() -> Vec<Chunks> {
    let mut all = Vec::new();
    let given = [2.0, 4.0, 5.0, 6.0].into_iter().flat_map(only).chain([
        Options { min_share_count: Some(2), ..Options::default() },
        Options { recursive: Some(false), ..Options::default() },
    ]);
    let given: Vec<Options> = given.collect();
    for answers in [vec![2, 2], vec![2, 0]] {
        let with = |global: &Options, own: &Options| {
            let mut build = two();
            build.answers = vec![answers.clone()];
            build.options = global.clone();
            build.groups[0].options = own.clone();
            sound(build)
        };
        for options in &given {
            all.push(with(options, &Options::default()));
            all.push(with(&Options::default(), options));
            all.extend(given.iter().map(|other| with(options, other)));
        }
    }
    all
}

/// Entry words 1 to 3 decide: what is equal, what unites, and which subgroup is nearest.
fn entry_words() -> Vec<Chunks> {
    let mut all = Vec::new();
    for word in 1..4 {
        let bits = |low: u64, high: u64| {
            let mut bits = [low, 0, 0, 0];
            bits[word] = high;
            bits
        };
        let with = |group: Group, modules: &[([u64; 4], u64)]| {
            let ids: [&[u8]; 3] = [b"a", b"b", b"c"];
            let place = |at: usize| Module {
                bits: modules[at].0,
                ..module(ids[at], modules[at].1, u32::try_from(at).unwrap_or(0))
            };
            let modules = (0..modules.len()).map(place).collect();
            sound(Build { entries: 256, ..build(modules, vec![group]) })
        };
        let aware = Group { entries_aware: Some(true), ..Group::default() };
        let merging = Group { threshold: Some(2.0), ..aware.clone() };
        all.push(with(Group::default(), &[(bits(0, 1), 5)]));
        all.push(with(Group::default(), &[(bits(1, 0), 5), (bits(0, 1 << 63), 3)]));
        all.push(with(aware, &[(bits(1, 0), 5), (bits(1, 1), 3)]));
        all.push(with(merging.clone(), &[(bits(1, 1), 1), (bits(1, 0), 3)]));
        // The one of size 1 seeks: one differs in two entries of the word, one in one of word 0.
        all.push(with(merging.clone(), &[(bits(1, 0), 1), (bits(1, 3), 3), (bits(3, 0), 5)]));
        all.push(with(merging.clone(), &[(bits(1, 3), 3), (bits(1, 0), 1), (bits(3, 0), 5)]));
        all.push(with(merging, &[(bits(3, 0), 5), (bits(1, 3 << 62), 3), (bits(1, 0), 1)]));
    }
    all
}
