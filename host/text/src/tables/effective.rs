//! The question without damage that an accepted damaged question amounts to.

use super::{BuildTables, of_capture, of_chunks, of_cut, of_merge, of_name};
use crate::{Build, Capture, Chunks, Cut, Damage, Merge, Module, Name, Question, Record, Subgroup};

/// The same question with the tables that are really handed in, in the order of their counts,
/// and without area lengths. Only for a question that is accepted: a damaged table can't be told
/// from a good one here.
pub fn effective(question: &Question) -> Question {
    match question {
        Question::Cut(cut) if !cut.damage.is_none() => Question::Cut(effective_cut(cut)),
        Question::Merge(merge) if !merge.damage.is_none() => {
            Question::Merge(effective_merge(merge))
        }
        Question::Capture(capture) if !capture.damage.is_none() => {
            Question::Capture(effective_capture(capture))
        }
        Question::Name(name) if !name.damage.is_none() => {
            Question::Name(Box::new(effective_name(name)))
        }
        Question::Chunks(chunks) if !chunks.damage.is_none() => {
            let build = effective_build(&of_chunks(chunks));
            Question::Chunks(Box::new(Chunks { build, damage: Damage::default() }))
        }
        _ => question.clone(),
    }
}

fn effective_cut(cut: &Cut) -> Cut {
    let tables = of_cut(cut);
    let ids = ids(&tables.ids, &tables.offsets);
    let modules = ids.into_iter().zip(tables.sizes).collect();
    Cut { modules, damage: Damage::default(), ..*cut }
}

fn effective_merge(merge: &Merge) -> Merge {
    let tables = of_merge(merge);
    let rows = tables.bits.chunks_exact(4).map(words);
    let subgroups = tables.sizes.iter().zip(rows);
    let subgroups = subgroups.map(|(size, bits)| Subgroup { size: *size, bits }).collect();
    Merge { entries: tables.e, subgroups, damage: Damage::default(), ..*merge }
}

fn effective_capture(capture: &Capture) -> Capture {
    let tables = of_capture(capture);
    Capture {
        recursive: tables.recursive,
        start: tables.start,
        records: records(&tables.dep_module, &tables.dep_next),
        flags: tables.flags,
        first: tables.first,
        damage: Damage::default(),
    }
}

fn effective_name(name: &Name) -> Name {
    let tables = of_name(name);
    Name {
        group_names: ids(&tables.group_names, &tables.group_offsets),
        entry_names: ids(&tables.entry_names, &tables.entry_offsets),
        number: tables.number,
        entries_aware: tables.entries_aware,
        bits: tables.bits,
        hash: tables.hash,
        damage: Damage::default(),
    }
}

fn effective_build(tables: &BuildTables) -> Build {
    let ids = ids(&tables.ids, &tables.offsets);
    let module = |(at, id): (usize, Vec<u8>)| Module {
        flags: tables.flags[at],
        size: tables.sizes[at],
        order: tables.orders[at],
        share_count: tables.shares[at],
        tags: tables.tags[at],
        bits: words(&tables.bits[4 * at..4 * at + 4]),
        first_record: tables.first[at],
        id,
    };
    let modules: Vec<Module> = ids.into_iter().enumerate().map(module).collect();
    let answers =
        |group: usize| tables.answers[group * modules.len()..(group + 1) * modules.len()].to_vec();
    Build {
        entries: tables.e,
        names: tables.k,
        count_on_entry: tables.count_on_entry,
        options: tables.options.clone(),
        records: records(&tables.dep_module, &tables.dep_next),
        groups: tables.groups.clone(),
        answers: (0..tables.groups.len()).map(answers).collect(),
        modules,
    }
}

/// The ids or names that offsets cut out of the slice.
fn ids(slice: &[u8], offsets: &[u32]) -> Vec<Vec<u8>> {
    offsets.windows(2).map(|pair| slice[pair[0] as usize..pair[1] as usize].to_vec()).collect()
}

/// Records 1 to D.
fn records(module: &[u32], next: &[u32]) -> Vec<Record> {
    let pairs = module.iter().zip(next).skip(1);
    pairs.map(|(module, next)| Record { module: *module, next: *next }).collect()
}

/// Four words.
fn words(row: &[u64]) -> [u64; 4] {
    [row[0], row[1], row[2], row[3]]
}
