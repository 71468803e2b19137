//! What the documents show is what the program prints.

mod common;

use std::{fs, path::PathBuf};

use common::{Ran, browser::folder, run, samples::content};

/// A document of the repository.
fn document(name: &str) -> String {
    let path = PathBuf::from(env!("CARGO_MANIFEST_DIR")).join("../..").join(name);
    fs::read_to_string(path).expect("the document can be read")
}

/// A text as it stands in a document: four blanks before each line that isn't empty.
fn indented(text: &str) -> String {
    let line = |line: &str| if line.is_empty() { "\n".into() } else { format!("    {line}\n") };
    text.lines().map(line).collect()
}

/// The lines after a heading that are indented, and the empty ones among them, without the blanks.
fn block(document: &str, after: &str) -> String {
    let (_, rest) = document.split_once(after).expect("the document has the place");
    let lines = rest.lines().skip_while(|line| !line.starts_with("    "));
    let lines = lines.take_while(|line| line.is_empty() || line.starts_with("    "));
    lines.map(|line| format!("{}\n", line.strip_prefix("    ").unwrap_or(line))).collect()
}

#[test]
fn the_readme_shows_the_picture() {
    assert!(document("README.md").contains(&indented(&content("widgets.window.expected"))));
}

#[test]
fn the_tree_form_shows_chunks_that_are_too_large() {
    let document = document("docs/TREE-FORM.md");
    assert!(document.contains(&indented(&content("large.window.expected"))));
}

#[test]
fn the_first_example_of_the_tree_form() {
    let block = block(&document("docs/TREE-FORM.md"), "# The tree form");
    let (tree, list) = block.split_once("$ ./chunklist small.tree\n").expect("a command");
    let file = folder("documents").join("small.tree");
    fs::write(&file, tree).expect("the tree can be written");
    let Ran { answers, messages, status } = run(&[file.to_str().expect("UTF-8")], b"");
    assert_eq!((messages.as_str(), status), ("", Some(0)));
    assert_eq!(answers.trim_end(), list.trim_end());
}

#[test]
fn the_full_example_of_the_tree_form() {
    let document = document("docs/TREE-FORM.md");
    let tree = block(&document, "## A full example");
    let Ran { answers, messages, status } = run(&["--tree"], tree.as_bytes());
    assert_eq!((messages.as_str(), status), ("", Some(0)));
    assert!(answers.starts_with("shop: 4 chunks, 5 modules, "), "{answers}");
    let named = answers.lines().filter_map(|line| line.strip_prefix("chunk ")?.split_once(": "));
    let names: Vec<&str> = named.filter_map(|(_, rest)| rest.split(", ").next()).collect();
    let told = document.lines().find(|line| line.starts_with("Its chunks are ")).expect("names");
    assert_eq!(told.split('`').skip(1).step_by(2).collect::<Vec<_>>(), names);
}
