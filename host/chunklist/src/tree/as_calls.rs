//! A tree in the exact form, with comments that say what its numbers stand for.

use text::{Case, Question};

use super::TreeBuild;

/// The build as a case of docs/TEXT-FORM.md.
pub fn as_calls(build: &TreeBuild) -> String {
    let TreeBuild { title, tree, numbered } = build;
    let mut text = format!("# {title}: what its numbers stand for\n");
    let mut note = |what: &str, names: &mut dyn Iterator<Item = &str>| {
        for (number, name) in names.enumerate() {
            text.push_str(&format!("# {what} {number} {name}\n"));
        }
    };
    note("entry", &mut tree.entries.iter().map(|entry| entry.name.as_str()));
    note("group", &mut tree.groups.iter().map(|group| group.label.as_str()));
    note("name", &mut numbered.names.iter().map(String::as_str));
    note("tag", &mut numbered.tags.iter().map(String::as_str));
    note("module", &mut numbered.places.iter().map(|place| tree.modules[*place].id.as_str()));
    let question = Question::Chunks(Box::new(build.call()));
    text.push_str(&Case { tag: title.clone(), question }.to_string());
    text
}
