//! A build that a person wrote: asks the library, and shows the list.

mod as_calls;
mod chunk_names;
mod fnv;
mod list;
mod options_in_force;
mod page;
mod picture;
mod refused;
mod shown;
mod too_large;
mod why;

pub use as_calls::as_calls;
pub use list::list;
pub use page::page;
pub use picture::picture;
pub use refused::{Refused, refused};
pub use shown::{Shown, ShownChunk, ShownModule};

use std::ops::Deref;

use reading::{chunks::chunk_list_told, story::Story};
use text::{
    Answer, ChunkList, Chunks, Damage, TextError, tables,
    tree::{Numbered, Tree, read_tree},
};

use crate::ask_build;
use chunk_names::ChunkNames;

/// A tree with its numbers.
#[derive(Debug, Clone)]
pub struct TreeBuild {
    /// The title that is written, or the one that its source gives it.
    pub title: String,
    /// As it was written.
    pub tree: Tree,
    /// What the host makes of it.
    pub numbered: Numbered,
}

/// A chunk list, and what its chunks are called.
#[derive(Debug, Clone, PartialEq)]
pub struct NamedList {
    /// The list.
    pub list: ChunkList,
    /// The library's name for each chunk.
    pub names: Vec<String>,
}

impl Deref for NamedList {
    type Target = ChunkList;

    fn deref(&self) -> &ChunkList {
        &self.list
    }
}

/// What the library answered to a tree.
#[derive(Debug, Clone)]
pub struct TreeAnswer {
    /// The chunk list, or what was refused.
    pub outcome: Result<NamedList, Refused>,
    /// What a lent area shows to be wrong; empty unless the library breaks its contract.
    pub warnings: Vec<String>,
}

/// What the host itself reads from document 01; nothing of it is proved.
#[derive(Debug, Clone)]
pub struct HostReading {
    /// What came of each item of the work list.
    pub story: Story,
    /// Whether its list is the library's.
    pub agrees: bool,
}

impl TreeBuild {
    /// Reads a tree and numbers what it names; a seed draws the load numbers. Its source gives it a
    /// title if it has none itself.
    ///
    /// # Errors
    ///
    /// The first line that can't be read, and what was expected there.
    pub fn read(text: &str, source: &str, seed: Option<u32>) -> Result<Self, TextError> {
        let tree = read_tree(text)?;
        let numbered = tree.numbered(seed)?;
        let title = tree.title.clone().unwrap_or_else(|| one_word(source));
        Ok(Self { title, tree, numbered })
    }

    /// Puts the build to the library, then each chunk for its name, with areas lent that show where
    /// it wrote.
    pub fn ask(&self) -> TreeAnswer {
        let asked = ask_build(&self.call()).asked;
        let mut warnings = asked.warnings;
        let list = asked.outcome.map(|answer| match answer {
            Answer::Chunks(list) => list,
            _ => ChunkList { chunks: Vec::new(), chunk_of: Vec::new() },
        });
        let outcome = list.map_err(Refused::Build).and_then(|list| self.named(list, &mut warnings));
        TreeAnswer { outcome, warnings }
    }

    /// The list with the library's name for each chunk, or the first chunk whose name is refused.
    fn named(&self, list: ChunkList, warnings: &mut Vec<String>) -> Result<NamedList, Refused> {
        let (chunk_names, mut names) = (ChunkNames::new(self), Vec::new());
        for chunk in &list.chunks {
            let asked = chunk_names.ask(chunk);
            warnings.extend(asked.warnings);
            let refused = |number| Refused::Name { chunk: chunk.chunk, number };
            names.push(asked.outcome.map_err(refused)?);
        }
        Ok(NamedList { list, names })
    }

    /// The host's own reading of a build that the library accepted with this list.
    pub fn read_by_host(&self, list: &ChunkList) -> HostReading {
        let (own, story) = chunk_list_told(&tables::of_chunks(&self.call()));
        HostReading { story, agrees: own == *list }
    }

    /// The build as a call of Chunks.
    fn call(&self) -> Chunks {
        Chunks { build: self.numbered.build.clone(), damage: Damage::default() }
    }
}

/// A title of one word, since it is the tag of a call.
fn one_word(source: &str) -> String {
    let words: Vec<&str> = source.split_whitespace().collect();
    if words.is_empty() { "tree".into() } else { words.join("-") }
}
