//! A build that a person writes: modules, groups and entries by name.
//!
//! [`read_tree`] reads the form of docs/TREE-FORM.md, and [`Tree::numbered`] does what a host does
//! with it: follows dependencies, matches patterns, makes names and numbers them.

mod line_words;
mod names;
mod nearest;
mod numbered;
mod order;
mod pattern;
mod reach;
mod read;
mod read_group;
mod read_module;
mod values;

pub use names::NameRule;
pub use numbered::Numbered;
pub use pattern::Pattern;
pub use read::read_tree;
pub use values::whole_size;

use crate::Options;

/// A build as a person writes it.
#[derive(Debug, Clone, PartialEq)]
pub struct Tree {
    /// One word, if it is said; it is the tag of the build as a call.
    pub title: Option<String>,
    pub order: Order,
    pub count_on_entry: u64,
    /// Options of the build as a whole.
    pub options: Options,
    pub entries: Vec<TreeEntry>,
    pub modules: Vec<TreeModule>,
    pub groups: Vec<TreeGroup>,
}

/// Where execution orders come from.
#[derive(Debug, Clone, Copy, PartialEq, Eq)]
pub enum Order {
    /// The order of the modules' lines.
    Lines,
    /// Worked out from the entries: what a module needs comes before it.
    Entries,
}

/// A word that names something else, and the line where it stands.
#[derive(Debug, Clone, PartialEq, Eq)]
pub struct Mention {
    pub line: usize,
    pub text: String,
}

/// An entry.
#[derive(Debug, Clone, PartialEq, Eq)]
pub struct TreeEntry {
    pub name: String,
    /// The id of its module.
    pub module: Mention,
}

/// A module.
#[derive(Debug, Clone, PartialEq, Eq)]
pub struct TreeModule {
    pub line: usize,
    pub id: String,
    pub size: u64,
    /// The ids of the modules that it depends on.
    pub needs: Vec<Mention>,
    /// The entries that reach it, if they are said and not worked out.
    pub entries: Option<Vec<Mention>>,
    pub tags: Vec<Mention>,
    /// The share count, if it is said and not the count of entries.
    pub shares: Option<u32>,
    /// 1 normal, 2 included, 4 already assigned, summed.
    pub flags: u8,
}

/// A group.
#[derive(Debug, Clone, PartialEq)]
pub struct TreeGroup {
    pub line: usize,
    /// What lists and pages call it.
    pub label: String,
    /// A module matches if one of these matches its id; without any, all modules match.
    pub tests: Vec<Pattern>,
    pub name: NameRule,
    pub tags: Vec<Mention>,
    pub options: Options,
    pub priority: Option<u32>,
    pub entries_aware: Option<bool>,
    /// `entries_aware_merge_threshold`.
    pub threshold: Option<f64>,
}

impl Default for Tree {
    fn default() -> Self {
        Self {
            title: None,
            order: Order::Lines,
            count_on_entry: 0,
            options: Options::default(),
            entries: Vec::new(),
            modules: Vec::new(),
            groups: Vec::new(),
        }
    }
}
