//! The names of a build's new chunks: those that the crate gives them, held against the name calls that
//! a host makes for the list.

use judge::{Judge, Outside, name_text};
use text::{Answer, Chunk, ChunkList, Chunks, Damage, Name, Question};

use super::Run;
use crate::side::{Library, Reference, Response, Side};

/// What a cut name ends with, on all sides.
const HASH: &str = "01234567";

/// What was compared of names.
#[derive(Debug, Clone, Copy, Default)]
pub struct NameTally {
    /// Chunks that were named.
    pub chunks: u64,
    /// Of these, those of entries-aware groups, and those whose name was cut.
    pub aware: u64,
    pub cut: u64,
}

impl Run {
    /// Names each chunk of a list, and holds the names against the crate's.
    pub(super) fn check_names(&mut self, chunks: &Chunks, list: &ChunkList) {
        let entry_names = entry_names(chunks.build.entries);
        let names = match Judge::default().names(chunks, &entry_names, HASH) {
            Ok(names) if names.len() == list.chunks.len() => names,
            Err(Outside::IdIsNoText) => return,
            other => {
                self.disagreements += 1;
                println!("# the crate's names of {} chunks: {other:?}", list.chunks.len());
                return;
            }
        };
        for (chunk, name) in list.chunks.iter().zip(names) {
            let question = Question::Name(Box::new(name_call(chunks, chunk, &entry_names)));
            self.note_name(&question, &name);
            let expected = Response::Answered(Answer::Name(name));
            for side in [&Reference as &dyn Side, &Library] {
                let response = side.respond(&question);
                self.expect("the crate's build", &expected, side.name(), &response, &question);
            }
        }
    }

    fn note_name(&mut self, question: &Question, name: &[u8]) {
        let aware = matches!(question, Question::Name(name) if name.entries_aware);
        self.names.chunks += 1;
        self.names.aware += u64::from(aware);
        self.names.cut += u64::from(aware && name.ends_with(format!("~{HASH}").as_bytes()));
    }
}

/// Names of so many entries, of up to eighty bytes, so that some full names are cut and a character may
/// stand where they are.
fn entry_names(entries: u64) -> Vec<Vec<u8>> {
    let name = |entry: u64| format!("e{entry}{}", "é".repeat(entry as usize * 13 % 40));
    (0..entries).map(|entry| name(entry).into_bytes()).collect()
}

/// The call for a chunk, with the name that the judge gives its group.
fn name_call(chunks: &Chunks, chunk: &Chunk, entry_names: &[Vec<u8>]) -> Name {
    let group = &chunks.build.groups[chunk.group as usize];
    Name {
        group_names: vec![name_text(chunk.name).into_bytes()],
        entry_names: entry_names.to_vec(),
        number: 0,
        entries_aware: group.entries_aware.unwrap_or(false),
        bits: chunk.bits,
        hash: HASH.into(),
        damage: Damage::default(),
    }
}
