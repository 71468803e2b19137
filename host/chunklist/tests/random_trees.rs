//! Random trees: the list doesn't depend on load numbers, the host's reading comes to the same list,
//! and the exact form keeps the build.

use std::fmt::Write;

use chunklist::tree::{Shown, TreeBuild, as_calls, list};
use text::{
    Question,
    drawn::drawn,
    read_cases,
    tree::{Numbered, read_tree},
};

/// How many trees are tried.
const TREES: u32 = 300;

/// Numbers that look drawn, for one tree.
struct Draw {
    stream: u32,
    place: u32,
}

impl Draw {
    fn below(&mut self, limit: u32) -> u32 {
        self.place += 1;
        drawn(self.stream, self.place) % limit
    }

    fn pick<'a>(&mut self, words: &[&'a str]) -> &'a str {
        words[self.below(words.len() as u32) as usize]
    }
}

/// The id of a module.
fn id(number: u32) -> String {
    let folders = ["lib", "lib/theme", "app", "x/theme/y"];
    format!("{}/m{number}", folders[number as usize % folders.len()])
}

/// A tree with up to 24 modules.
fn tree(number: u32) -> String {
    let mut draw = Draw { stream: 1_000 + number, place: 0 };
    let modules = draw.below(24);
    let mut text = format!("order {}\n", draw.pick(&["lines", "entries"]));
    for entry in 0..if modules == 0 { 0 } else { draw.below(5) } {
        writeln!(text, "entry e{entry} {}", id(draw.below(modules))).expect("a string takes all");
    }
    for module in 0..modules {
        let (size, end) =
            (draw.below(60), draw.pick(&["", "", "", "", " external", " excluded", " assigned"]));
        let tag = draw.pick(&["", " tags t", " tags u t"]);
        write!(text, "module {} {size}{end}{tag}", id(module)).expect("a string takes all");
        for _ in 0..draw.below(4) {
            write!(text, " needs {}", id(draw.below(modules))).expect("a string takes all");
        }
        text.push('\n');
    }
    // A module that has every tag, so that a group may ask for them.
    text.push_str("module last 7 tags t u\n");
    (0..draw.below(5)).for_each(|group| text.push_str(&group_line(&mut draw, group)));
    text
}

fn group_line(draw: &mut Draw, group: u32) -> String {
    let test = draw.pick(&["", " test lib/*", " test lib/**", " test **/theme/**", " test **/m?"]);
    let name = draw.pick(&["", " name {1}", " name x-{2}", " name {-1}", " name {3}"]);
    let min_size = draw.pick(&["", "", " min_size 40", " min_size 90"]);
    let max_size = draw.pick(&["", " max_size 50", " max_size 120"]);
    let filter =
        draw.pick(&["", "", " min_share_count 2", " max_module_size 30", " tags t", " tags u"]);
    let recursive = draw.pick(&["", " include_dependencies_recursively false"]);
    let aware = draw.pick(&[
        "",
        " entries_aware true",
        " entries_aware true entries_aware_merge_threshold 60",
    ]);
    let priority = draw.below(3);
    format!(
        "group g{group}{test}{name}{min_size}{max_size}{filter}{recursive}{aware} priority {priority}\n"
    )
}

/// The list of a tree by names, which the host's reading has to come to as well.
fn listed(text: &str, seed: Option<u32>) -> String {
    let build =
        TreeBuild::read(text, "random", seed).unwrap_or_else(|error| panic!("{error}\n{text}"));
    let answer = build.ask();
    assert_eq!(answer.warnings, Vec::<String>::new());
    let chunks = answer.outcome.unwrap_or_else(|refused| panic!("{refused:?}\n{text}"));
    assert!(build.read_by_host(&chunks).agrees, "{text}");
    list(&Shown::new(&build, &chunks))
}

#[test]
fn load_numbers_do_not_matter() {
    let (mut several, mut others, mut too_large) = (0, 0, [0; 2]);
    for number in 0..TREES {
        let text = tree(number);
        let plain = listed(&text, None);
        for seed in 0..3 {
            assert_eq!(listed(&text, Some(seed)), plain, "seed {seed}\n{text}");
        }
        several += u32::from(plain.contains("chunk 1:"));
        others += u32::from(plain.contains("entries none"));
        too_large[0] += u32::from(plain.contains(": it has one module"));
        too_large[1] += u32::from(plain.contains(": no cut of its modules leaves min_size"));
    }
    assert!(several > TREES / 3 && others > 0, "{several} with several chunks, {others}");
    assert!(too_large.into_iter().all(|trees| trees > 0), "{too_large:?}");
}

#[test]
fn the_exact_form_keeps_the_build() {
    for number in 0..TREES {
        let text = tree(number);
        let build = TreeBuild::read(&text, "random", Some(number)).expect("a tree");
        let cases = read_cases(&as_calls(&build)).expect("a case");
        let Question::Chunks(chunks) = &cases[0].question else { panic!("a whole build") };
        let Numbered { build: numbered, .. } =
            read_tree(&text).and_then(|tree| tree.numbered(Some(number))).expect("numbers");
        assert_eq!(chunks.build, numbered, "{text}");
    }
}
