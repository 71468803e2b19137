//! `docs/GUARANTEES.md` names theorems that are there: every sentence about what is proved names one,
//! and each of them stands in the file that it names.

use repository::{read, root};

/// The sections that say what is proved, by their headings.
const PROVED: [&str; 3] =
    ["The same tree gives the same chunks", "Sizes can't drift", "What is refused"];

/// A theorem, or a function for its contract, and the file that is said to have it.
#[derive(Debug, PartialEq, Eq)]
struct Cited<'a> {
    theorem: &'a str,
    file: &'a str,
}

/// The theorems that a text names: each `NAME` in `FILE`.
fn cited(text: &str) -> Vec<Cited<'_>> {
    let words: Vec<&str> = text.split('`').collect();
    let named = words.windows(3).filter(|three| three[1].trim() == "in");
    named.map(|three| Cited { theorem: three[0], file: three[2] }).collect()
}

/// Whether a source has a function of that name with a contract that says what it does.
fn promises(source: &str, function: &str) -> bool {
    let (_, from) = source.split_once(&format!("fn {function}(")).unwrap_or_default();
    let (contract, _) = from.split_once("\n{\n").unwrap_or_default();
    contract.contains("\n    ensures ")
}

/// Whether a text states a theorem of that name.
fn states(text: &str, theorem: &str) -> bool {
    let stated = |line: &str| {
        let line = line.trim_start();
        let line = line.strip_prefix("pub ").unwrap_or(line);
        line.strip_prefix(theorem).is_some_and(|rest| rest.starts_with(" : "))
    };
    text.lines().any(stated)
}

/// The list items of a section, each on one line.
fn items(page: &str, heading: &str) -> Vec<String> {
    let (_, section) = page.split_once(&format!("\n## {heading}\n")).expect("the section is there");
    let section = section.split("\n## ").next().unwrap_or_default();
    // What follows the list is the conditions in short, which the list has the theorem of.
    let list = section.split("\n\n").find(|part| part.trim_start().starts_with("- "));
    let list = list.expect("the section has a list").trim().trim_start_matches("- ");
    let one_line = |item: &str| item.split_whitespace().collect::<Vec<_>>().join(" ");
    list.split("\n- ").map(one_line).collect()
}

#[test]
fn every_named_theorem_is_there() {
    let page = read("docs/GUARANTEES.md").split_whitespace().collect::<Vec<_>>().join(" ");
    let named = cited(&page);
    assert!(named.len() >= 20, "{} theorems are named", named.len());
    for Cited { theorem, file } in named {
        assert!(file.starts_with("crates/"), "{theorem} in {file}");
        assert!(root().join(file).is_file(), "there is no {file}, where {theorem} should be");
        let stands = if file.ends_with(".rt") { promises } else { states };
        assert!(stands(&read(file), theorem), "{file} states no {theorem}");
    }
}

#[test]
fn every_sentence_about_what_is_proved_names_a_theorem() {
    let page = read("docs/GUARANTEES.md");
    let all: Vec<String> = PROVED.iter().flat_map(|heading| items(&page, heading)).collect();
    assert!(all.len() >= 18, "{} sentences", all.len());
    for item in all {
        for sentence in item.split(". ") {
            assert!(!cited(sentence).is_empty(), "names no theorem: {sentence}");
        }
        assert!(item.ends_with(")."), "the theorem stands at the end: {item}");
    }
}

#[test]
fn a_theorem_that_is_gone_would_be_noticed() {
    let file = "crates/chunks/proofs/Renumbered.antt";
    let text = read(file);
    assert!(states(&text, "renumbered"));
    assert!(!states(&text, "renumbere"));
    assert!(!states(&text.replace("renumbered :", "renumbered_once :"), "renumbered"));
    let source = read("crates/gentropi/src/splits.rt");
    assert!(promises(&source, "gentropi_chunks"));
    assert!(!promises(&source, "gentropi_chunk"));
    assert!(!promises(&source.replace("ensures", "requires"), "gentropi_chunks"));
    assert_eq!(
        cited("so (`a` in `b`, `c` in `d`)."),
        [Cited { theorem: "a", file: "b" }, Cited { theorem: "c", file: "d" }]
    );
}
