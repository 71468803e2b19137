//! What a host makes of a tree: numbers of names, answers, entries, orders and load numbers.

use std::collections::BTreeSet;

use text::{
    Build, Record,
    tree::{Numbered, read_tree},
};

fn numbered(text: &str, seed: Option<u32>) -> Numbered {
    let tree = read_tree(text).expect("a tree");
    tree.numbered(seed).expect("numbers")
}

const SMALL: &str = "
entry one app
entry two tool
module app 10k needs lib/a ui/dark/x.css
module tool 7 needs lib/b ui/dark/x.css
module lib/a 1 needs lib/b
module lib/b 2 tags slow old
module ui/dark/x.css 3 entries two
module rest 4 tags old shares 9
module far 5 external needs rest
module gone 6 excluded
module there 8 assigned entries -
group libs test lib/* name zz priority 3
group ui test ui/** test lib/b name {2} entries_aware true
group deep name {3} tags old
";

/// One number for each module.
fn each<T>(build: &Build, of: impl Fn(&text::Module) -> T) -> Vec<T> {
    build.modules.iter().map(of).collect()
}

#[test]
fn names_are_numbered_in_byte_order() {
    let Numbered { build, names, .. } = numbered(SMALL, None);
    assert_eq!(names, ["b", "dark", "x.css", "zz"]);
    assert_eq!(build.names, 4);
    // 0 not matched, 1 matched without a name, 2 + k name k.
    assert_eq!(build.answers[0], [0, 0, 5, 5, 0, 0, 0, 0, 0]);
    assert_eq!(build.answers[1], [0, 0, 0, 2, 3, 0, 0, 0, 0]);
    assert_eq!(build.answers[2], [1, 1, 1, 1, 4, 1, 1, 1, 1]);
}

#[test]
fn modules_have_what_was_written() {
    let Numbered { build, tags, .. } = numbered(SMALL, None);
    assert_eq!(each(&build, |module| module.size), [10_240, 7, 1, 2, 3, 4, 5, 6, 8]);
    assert_eq!(each(&build, |module| module.flags), [3, 3, 3, 3, 3, 3, 2, 1, 7]);
    assert_eq!(tags, ["old", "slow"]);
    assert_eq!(each(&build, |module| module.tags), [0, 0, 0, 3, 0, 1, 0, 0, 0]);
    assert_eq!(build.groups[2].mask, 1);
    assert_eq!((build.groups[0].priority, build.groups[1].entries_aware), (Some(3), Some(true)));
}

#[test]
fn entries_are_followed_unless_they_are_said() {
    let Numbered { build, .. } = numbered(SMALL, None);
    assert_eq!(build.entries, 2);
    assert_eq!(each(&build, |module| module.bits[0]), [1, 2, 1, 3, 2, 0, 0, 0, 0]);
    assert_eq!(each(&build, |module| module.share_count), [1, 1, 1, 2, 1, 9, 0, 0, 0]);
}

#[test]
fn orders_are_those_of_lines_or_of_entries() {
    let by_lines = numbered(SMALL, None).build;
    assert_eq!(each(&by_lines, |module| module.order), [0, 1, 2, 3, 4, 5, 6, 7, 8]);
    let by_entries = numbered(&format!("order entries\n{SMALL}"), None).build;
    assert_eq!(each(&by_entries, |module| module.order), [3, 4, 1, 0, 2, 5, 6, 7, 8]);
}

#[test]
fn options_are_by_the_names_of_the_crate() {
    let text = "count_on_entry 3
options min_size 1 max_size 2k min_module_size 0.5 max_module_size 4
  min_share_count 5 include_dependencies_recursively false
group g entries_aware false entries_aware_merge_threshold 1.5k
  include_dependencies_recursively true
";
    let build = numbered(text, None).build;
    let (options, group) = (&build.options, &build.groups[0]);
    assert_eq!((options.min_size, options.max_size), (Some(1.0), Some(2_048.0)));
    assert_eq!((options.min_module_size, options.max_module_size), (Some(0.5), Some(4.0)));
    assert_eq!((options.min_share_count, options.recursive), (Some(5), Some(false)));
    assert_eq!((group.entries_aware, group.threshold), (Some(false), Some(1_536.0)));
    assert_eq!((group.options.recursive, build.count_on_entry), (Some(true), 3));
}

#[test]
fn words_in_quotes_are_no_keywords() {
    let text = "module \"a b\" 1 needs \"needs\" \"q\\\"\"\nmodule \"needs\" 2 # a note\nmodule \"q\\\"\" 3\n";
    let build = numbered(text, None).build;
    assert_eq!(
        each(&build, |module| module.id.clone()),
        [b"a b".to_vec(), b"needs".to_vec(), b"q\"".to_vec()]
    );
    assert_eq!(chain(&build, 0), [1, 2]);
}

#[test]
fn lines_may_end_as_on_other_systems() {
    let plain = numbered("tree t\nmodule a 1\ngroup g\n", None);
    assert_eq!(numbered("\u{feff}tree t\r\nmodule a 1\r\ngroup g\r\n", None), plain);
}

#[test]
fn a_shared_id_names_the_module_that_takes_part() {
    let build = numbered("module a 1 external\nmodule a 2\nmodule b 3 needs a\n", None).build;
    assert_eq!(chain(&build, 2), [1]);
}

/// The modules along a module's chain.
fn chain(build: &Build, module: usize) -> Vec<u32> {
    let record = |number: u32| build.records[number as usize - 1];
    let (mut modules, mut next) = (Vec::new(), build.modules[module].first_record);
    while next != 0 {
        let Record { module, next: after } = record(next);
        modules.push(module);
        next = after;
    }
    modules
}

/// A module by what doesn't depend on its number.
fn described(build: &Build, module: usize) -> (Vec<u8>, u32, Vec<u32>, BTreeSet<Vec<u8>>) {
    let one = &build.modules[module];
    let answers = build.answers.iter().map(|answers| answers[module]).collect();
    let needs = chain(build, module).into_iter();
    let needs = needs.map(|need| build.modules[need as usize].id.clone()).collect();
    (one.id.clone(), one.order, answers, needs)
}

#[test]
fn a_seed_changes_load_numbers_and_nothing_else() {
    let plain = numbered(SMALL, None);
    let all = |build: &Build| {
        let modules = 0..build.modules.len();
        modules.map(|module| described(build, module)).collect::<BTreeSet<_>>()
    };
    let mut numberings = BTreeSet::new();
    for seed in 0..20 {
        let drawn = numbered(SMALL, Some(seed));
        assert_eq!(all(&drawn.build), all(&plain.build));
        assert_eq!((&drawn.names, &drawn.build.groups), (&plain.names, &plain.build.groups));
        for (load, place) in drawn.places.iter().enumerate() {
            assert_eq!(drawn.build.modules[load].id, plain.build.modules[*place].id);
        }
        numberings.insert(drawn.places);
    }
    assert!(numberings.len() > 15, "{}", numberings.len());
    assert_eq!(numbered(SMALL, Some(3)), numbered(SMALL, Some(3)));
}
