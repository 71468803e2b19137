//! What a refusal is about, by the lines of a tree. The library has tested; this only looks for the
//! place.

use std::collections::BTreeMap;

use gentropi::{Refusal, limits};
use text::Quoted;

use super::TreeBuild;

/// What the library refused, and with which number.
#[derive(Debug, Clone, Copy, PartialEq, Eq)]
pub enum Refused {
    /// The build, with this number.
    Build(u32),
    /// The name of a chunk.
    Name {
        /// The chunk's number in the list.
        chunk: u32,
        /// The number of the refusal.
        number: u32,
    },
}

/// The refusal in words, and each place of the tree that it is about.
pub fn refused(build: &TreeBuild, refused: Refused) -> String {
    let (what, number, places) = match refused {
        Refused::Build(number) => ("the build".into(), number, of_build(build, number)),
        Refused::Name { chunk, number } => {
            (format!("the name of chunk {chunk}"), number, of_name(build, number))
        }
    };
    let meaning = Refusal::check(number).map_or_else(Refusal::meaning, |()| "nothing is wrong");
    let places: String = places.iter().map(|place| format!("\n  {place}")).collect();
    format!("the library refuses {what} with {number}: {meaning}{places}")
}

fn of_build(build: &TreeBuild, number: u32) -> Vec<String> {
    match number {
        1 => counts(build),
        3 => long_ids(build),
        4 => shared_ids(build),
        6 => total(build),
        11 => vec![format!("count_on_entry is {}", build.tree.count_on_entry)],
        _ => Vec::new(),
    }
}

/// No tree that is read leads here: the host would have to lay out or number names wrongly.
fn of_name(build: &TreeBuild, number: u32) -> Vec<String> {
    match number {
        1 => counts(build),
        15 => falling_name(build).into_iter().collect(),
        _ => Vec::new(),
    }
}

/// The first name that doesn't come after the one before it.
fn falling_name(build: &TreeBuild) -> Option<String> {
    let pair = build.numbered.names.windows(2).find(|pair| pair[0] >= pair[1])?;
    Some(format!("`{}` before `{}`", Quoted(&pair[0]), Quoted(&pair[1])))
}

/// The counts that are above their limits.
fn counts(build: &TreeBuild) -> Vec<String> {
    let tree = &build.tree;
    let line = |place: Option<usize>| place.map_or(String::new(), |line| format!(" (line {line})"));
    let module = line(tree.modules.get(limits::MODULES).map(|module| module.line));
    let group = line(tree.groups.get(limits::GROUPS).map(|group| group.line));
    let entry = line(tree.entries.get(limits::ENTRIES).map(|entry| entry.module.line));
    let counts = [
        ("modules", tree.modules.len(), limits::MODULES, module),
        ("groups", tree.groups.len(), limits::GROUPS, group),
        ("entries", tree.entries.len(), limits::ENTRIES, entry),
        ("names", build.numbered.names.len(), limits::NAMES, String::new()),
        ("dependencies", build.numbered.build.records.len(), limits::RECORDS, String::new()),
    ];
    let above = counts.into_iter().filter(|(_, count, limit, _)| count > limit);
    above.map(|(what, count, limit, at)| format!("{count} {what}, at most {limit}{at}")).collect()
}

fn long_ids(build: &TreeBuild) -> Vec<String> {
    let long = build.tree.modules.iter().filter(|module| module.id.len() > limits::ID_BYTES);
    long.map(|module| format!("line {}: an id of {} bytes", module.line, module.id.len())).collect()
}

fn shared_ids(build: &TreeBuild) -> Vec<String> {
    let mut lines: BTreeMap<&str, Vec<String>> = BTreeMap::new();
    for module in build.tree.modules.iter().filter(|module| module.flags & 3 == 3) {
        lines.entry(&module.id).or_default().push(module.line.to_string());
    }
    let shared = lines.into_iter().filter(|(_, lines)| lines.len() > 1);
    shared.map(|(id, lines)| format!("`{id}` in lines {}", lines.join(", "))).collect()
}

fn total(build: &TreeBuild) -> Vec<String> {
    let modules = || build.tree.modules.iter().filter(|module| module.flags & 3 == 3);
    let total: u128 = modules().map(|module| u128::from(module.size)).sum();
    let largest = modules().max_by_key(|module| module.size);
    let largest = largest.map(|one| format!("the largest is `{}` in line {}", one.id, one.line));
    std::iter::once(format!("they add to {total}")).chain(largest).collect()
}
