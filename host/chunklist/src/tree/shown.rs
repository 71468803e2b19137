//! A chunk list by names, as lists, pictures and pages show it.

use text::tree::TreeModule;

use super::{NamedList, TreeBuild, too_large::too_large};

/// A chunk list by names. Nothing of it depends on load numbers.
#[derive(Debug, Clone, PartialEq)]
pub struct Shown {
    /// The title of the tree.
    pub title: String,
    /// The names of the entries.
    pub entries: Vec<String>,
    /// The labels of the groups.
    pub groups: Vec<String>,
    /// The new chunks in the order in which they were made.
    pub chunks: Vec<ShownChunk>,
    /// The modules that are in no new chunk, in the order of their lines.
    pub left: Vec<ShownModule>,
}

/// A chunk.
#[derive(Debug, Clone, PartialEq)]
pub struct ShownChunk {
    /// Its number, which goes on from the count on entry.
    pub number: u32,
    /// The number of its group.
    pub group: usize,
    /// The label of its group.
    pub label: String,
    /// The name that its group gives its modules.
    pub group_name: String,
    /// Its own name, as the library gave it.
    pub name: String,
    /// Its size as the library gave it.
    pub size: u64,
    /// Why it is above its maximum, by the library's mark; nothing for a chunk that isn't.
    pub too_large: Option<String>,
    /// The numbers of its entries.
    pub entries: Vec<usize>,
    /// Its modules in execution order.
    pub modules: Vec<ShownModule>,
}

/// A module.
#[derive(Debug, Clone, PartialEq)]
pub struct ShownModule {
    /// Its stable id.
    pub id: String,
    /// Its size.
    pub size: u64,
    /// Its load number.
    pub load: usize,
    /// The numbers of the entries that reach it.
    pub entries: Vec<usize>,
    /// `external`, `excluded`, `assigned`, each if it is.
    pub states: Vec<&'static str>,
}

impl Shown {
    /// The list of a build by names.
    pub fn new(build: &TreeBuild, list: &NamedList) -> Self {
        let tree = &build.tree;
        let chunk = |(chunk, name): (&text::Chunk, &String)| ShownChunk {
            number: chunk.chunk,
            group: chunk.group as usize,
            label: tree.groups[chunk.group as usize].label.clone(),
            group_name: build.numbered.names[chunk.name as usize].clone(),
            name: name.clone(),
            size: chunk.size as u64,
            too_large: too_large(tree, &tree.groups[chunk.group as usize], chunk.mark),
            entries: entries(chunk.bits),
            modules: chunk.modules.iter().map(|load| module(build, *load as usize)).collect(),
        };
        let mut left: Vec<usize> =
            (0..list.chunk_of.len()).filter(|load| list.chunk_of[*load] == 0).collect();
        left.sort_by_key(|load| build.numbered.places[*load]);
        Self {
            title: build.title.clone(),
            entries: tree.entries.iter().map(|entry| entry.name.clone()).collect(),
            groups: tree.groups.iter().map(|group| group.label.clone()).collect(),
            chunks: list.chunks.iter().zip(&list.names).map(chunk).collect(),
            left: left.into_iter().map(|load| module(build, load)).collect(),
        }
    }

    /// The names of entries, or `none`.
    pub fn entry_names(&self, entries: &[usize]) -> String {
        let names: Vec<&str> = entries.iter().map(|entry| self.entries[*entry].as_str()).collect();
        if names.is_empty() { "none".into() } else { names.join(" ") }
    }

    /// The bytes and the modules of all chunks.
    pub fn totals(&self) -> (u64, usize) {
        let bytes = self.chunks.iter().map(|chunk| chunk.size).sum();
        (bytes, self.chunks.iter().map(|chunk| chunk.modules.len()).sum())
    }

    /// The chunks that are larger than a window.
    pub fn above(&self, window: u64) -> Vec<&ShownChunk> {
        self.chunks.iter().filter(|chunk| chunk.size > window).collect()
    }
}

fn module(build: &TreeBuild, load: usize) -> ShownModule {
    let written = &build.tree.modules[build.numbered.places[load]];
    let numbered = &build.numbered.build.modules[load];
    ShownModule {
        id: written.id.clone(),
        size: written.size,
        load,
        entries: entries(numbered.bits),
        states: states(written),
    }
}

/// The words for a module that isn't a plain one.
fn states(module: &TreeModule) -> Vec<&'static str> {
    let states = [
        (module.flags & 1 == 0, "external"),
        (module.flags & 2 == 0, "excluded"),
        (module.flags & 4 != 0, "assigned"),
    ];
    states.into_iter().filter(|(is, _)| *is).map(|(_, word)| word).collect()
}

/// The entries of a set of bits.
pub fn entries(bits: [u64; 4]) -> Vec<usize> {
    (0..256).filter(|entry| bits[entry / 64] >> (entry % 64) & 1 == 1).collect()
}

/// `1 module`, `2 modules`.
pub fn counted(count: usize, what: &str) -> String {
    let ending = if count == 1 { "" } else { "s" };
    format!("{count} {what}{ending}")
}
