//! Every public function of the binding has an example in its documentation, which a doc test runs.

use repository::{files, read};

/// The public functions of a source, each with whether its documentation has an example.
fn documented(source: &str) -> Vec<(String, bool)> {
    let (mut found, mut has_example) = (Vec::new(), false);
    for line in source.lines().map(str::trim_start) {
        let signature = line.strip_prefix("pub fn ").or_else(|| line.strip_prefix("pub const fn "));
        if let Some(signature) = signature {
            let end = signature.find(['(', '<']).unwrap_or(signature.len());
            found.push((signature[..end].to_string(), has_example));
        }
        has_example = match line.starts_with("///") {
            true => has_example || line.starts_with("/// ```"),
            false => has_example && line.starts_with("#["),
        };
    }
    found
}

#[test]
fn every_public_function_has_an_example() {
    let mut count = 0;
    for file in files("host/gentropi/src", ".rs") {
        // The foreign declarations are the functions of `raw` once more, which have examples.
        let functions =
            if file.ends_with("/sys.rs") { Vec::new() } else { documented(&read(&file)) };
        for (name, has_example) in functions {
            assert!(has_example, "{name} in {file} has no example");
            count += 1;
        }
    }
    assert!(count >= 30, "{count} functions were found");
}

#[test]
fn a_missing_example_is_noticed() {
    let source = "/// One.\n///\n/// ```\n/// ```\npub fn one() {}\n\n/// Two.\npub fn two() {}\n";
    assert_eq!(documented(source), [("one".into(), true), ("two".into(), false)]);
}

#[test]
fn the_readme_has_rust_lines_that_are_run() {
    let readme = read("README.md");
    let (_, block) =
        readme.split_once("\n```rust\n").expect("a fenced block, which a doc test takes");
    let block = block.split("```").next().unwrap_or_default();
    for call in ["gentropi::similarity", "gentropi::cut", "gentropi::chunks_to_vec"] {
        assert!(block.contains(call), "README's lines have no {call}");
    }
}
