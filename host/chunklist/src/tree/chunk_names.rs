//! The names of chunks: the host makes the tables of names, the full name and its hash, and the
//! library answers the name.

use gentropi::{ChunkToName, IdBuf, chunk_name};
use text::Chunk;

use super::{TreeBuild, fnv, shown::entries};
use crate::Lent;

/// How many bytes an area has beyond what the call needs, to show what is written there.
const BEYOND: usize = 16;

/// The names of a build, as the library is handed them with each chunk.
pub struct ChunkNames<'a> {
    build: &'a TreeBuild,
    group_names: IdBuf,
    entry_names: IdBuf,
}

/// What came of the question for one name.
pub struct AskedName {
    /// The name, or the number of the refusal.
    pub outcome: Result<String, u32>,
    /// What the lent area shows to be wrong; empty unless the library breaks its contract.
    pub warnings: Vec<String>,
}

impl<'a> ChunkNames<'a> {
    /// Lays the names of a build out. An entry's name is the one that is written.
    pub fn new(build: &'a TreeBuild) -> Self {
        let group_names = build.numbered.names.iter().collect();
        let entry_names = build.tree.entries.iter().map(|entry| &entry.name).collect();
        Self { build, group_names, entry_names }
    }

    /// Asks for the name of a chunk, with an area lent that shows where the library wrote.
    pub fn ask(&self, chunk: &Chunk) -> AskedName {
        let hash = fnv::last_digits(self.full_name(chunk).as_bytes());
        let group = self.build.tree.groups.get(chunk.group as usize);
        let question = ChunkToName {
            group_names: self.group_names.as_ids(),
            entry_names: self.entry_names.as_ids(),
            number: chunk.name,
            entries_aware: group.is_some_and(|group| group.entries_aware == Some(true)),
            bits: chunk.bits,
            hash: &hash,
        };
        let mut area = Lent::new("name", question.area_bytes() + BEYOND);
        let answer = chunk_name(&question, area.lend()).map(<[u8]>::to_vec);
        let (outcome, fault) = match answer {
            Ok(name) => {
                let fault = area.kept_past(name.len()).or_else(|| not_utf8(&name));
                (Ok(String::from_utf8_lossy(&name).into_owned()), fault)
            }
            Err(refusal) => (Err(refusal.number()), area.untouched()),
        };
        let of_chunk = |fault| format!("chunk {}: {fault}", chunk.chunk);
        AskedName { outcome, warnings: fault.into_iter().map(of_chunk).collect() }
    }

    /// The name that the hash is made of: the group's, then each entry of the chunk that has a name.
    fn full_name(&self, chunk: &Chunk) -> String {
        let TreeBuild { tree, numbered, .. } = self.build;
        let group_name = numbered.names.get(chunk.name as usize).map_or("", String::as_str);
        let of_entry = |entry: usize| tree.entries.get(entry).map(|entry| entry.name.as_str());
        let entry_names = entries(chunk.bits).into_iter().filter_map(of_entry);
        let named = entry_names.filter(|name| !name.is_empty());
        [group_name].into_iter().chain(named).collect::<Vec<_>>().join("~")
    }
}

/// What is wrong with a name that can't be shown as it is.
fn not_utf8(name: &[u8]) -> Option<String> {
    std::str::from_utf8(name).is_err().then(|| "the name isn't UTF-8".into())
}
