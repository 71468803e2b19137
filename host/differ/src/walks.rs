//! The crate under another order of walking its hash maps and sets.
//!
//! What may differ then: the order in which the subgroups of one entries-aware (group, name) are
//! taken off the work list, and with it the numbers of their chunks. Everything else has to be
//! the same: which modules each chunk holds and in which order, its group, name, size, bits and mark,
//! the order of groups and names, the order of the pieces of one subgroup, and that each
//! subgroup's pieces follow one another.

use text::{Chunk, ChunkList};

/// How another walk's list compares with the one under the papers' order.
#[derive(Debug, Clone, Copy, PartialEq, Eq)]
pub enum Agreement {
    Same,
    /// Subgroups of one (group, name) come in another order.
    Reordered,
    /// Something differs that must not.
    Differs,
}

/// Compares the list under another walk with that under the papers' order, of which each chunk's
/// starting item is known.
pub fn compare(document: &ChunkList, origin: &[usize], other: &ChunkList) -> Agreement {
    if document == other {
        return Agreement::Same;
    }
    let mut runs = runs(&document.chunks, origin);
    let mut rest = other.chunks.as_slice();
    let mut number = document.chunks.first().map_or(0, |chunk| chunk.chunk);
    while let Some(first) = rest.first() {
        // Only a run of the block that is next may come: the same group and name as the first.
        let block = runs.first().map(|run| (run[0].group, run[0].name));
        let found = runs.iter().position(|run| {
            Some((run[0].group, run[0].name)) == block && same_content(run[0], first)
        });
        let Some(found) = found else {
            return Agreement::Differs;
        };
        let run = runs.remove(found);
        let same = run.len() <= rest.len()
            && run.iter().zip(rest).zip(number..).all(|((expected, chunk), number)| {
                same_content(expected, chunk) && chunk.chunk == number
            });
        if !same {
            return Agreement::Differs;
        }
        number += u32::try_from(run.len()).unwrap_or(u32::MAX);
        rest = &rest[run.len()..];
    }
    if runs.is_empty() && places_fit(other) { Agreement::Reordered } else { Agreement::Differs }
}

/// The chunks of each starting item, in order.
fn runs<'a>(chunks: &'a [Chunk], origin: &[usize]) -> Vec<Vec<&'a Chunk>> {
    let mut runs: Vec<Vec<&Chunk>> = Vec::new();
    for (at, chunk) in chunks.iter().enumerate() {
        match runs.last_mut() {
            Some(run) if origin[at] == origin[at - 1] => run.push(chunk),
            _ => runs.push(vec![chunk]),
        }
    }
    runs
}

/// Whether two chunks are the same but for their numbers.
fn same_content(expected: &Chunk, chunk: &Chunk) -> bool {
    Chunk { chunk: expected.chunk, ..chunk.clone() } == *expected
}

/// Whether each module has the number of the chunk that holds it, or 0.
fn places_fit(list: &ChunkList) -> bool {
    let mut chunk_of = vec![0; list.chunk_of.len()];
    for chunk in &list.chunks {
        for module in &chunk.modules {
            chunk_of[*module as usize] = chunk.chunk + 1;
        }
    }
    chunk_of == list.chunk_of
}

#[cfg(test)]
mod tests {
    use super::*;

    fn chunk(number: u32, name: u32, module: u32) -> Chunk {
        Chunk {
            chunk: number,
            group: 0,
            name,
            size: 1.0,
            bits: [1, 0, 0, 0],
            mark: 0,
            modules: vec![module],
        }
    }

    fn list(chunks: Vec<Chunk>) -> ChunkList {
        let mut chunk_of = vec![0; chunks.len()];
        for chunk in &chunks {
            chunk_of[chunk.modules[0] as usize] = chunk.chunk + 1;
        }
        ChunkList { chunks, chunk_of }
    }

    #[test]
    fn only_whole_subgroups_of_one_name_may_change_places() {
        let document = list(vec![chunk(0, 0, 0), chunk(1, 0, 1), chunk(2, 0, 2), chunk(3, 1, 3)]);
        let origin = [0, 0, 1, 2];
        let other = list(vec![chunk(0, 0, 2), chunk(1, 0, 0), chunk(2, 0, 1), chunk(3, 1, 3)]);
        assert_eq!(compare(&document, &origin, &document), Agreement::Same);
        assert_eq!(compare(&document, &origin, &other), Agreement::Reordered);
        let pieces = list(vec![chunk(0, 0, 1), chunk(1, 0, 0), chunk(2, 0, 2), chunk(3, 1, 3)]);
        assert_eq!(compare(&document, &origin, &pieces), Agreement::Differs);
        let names = list(vec![chunk(0, 1, 3), chunk(1, 0, 0), chunk(2, 0, 1), chunk(3, 0, 2)]);
        assert_eq!(compare(&document, &origin, &names), Agreement::Differs);
        let mut marked = other.clone();
        marked.chunks[0].mark = 1;
        assert_eq!(compare(&document, &origin, &marked), Agreement::Differs);
        let fewer = list(vec![chunk(0, 0, 0), chunk(1, 0, 1)]);
        assert_eq!(compare(&document, &origin, &fewer), Agreement::Differs);
    }
}
