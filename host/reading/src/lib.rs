//! An independent plain reading of document 01 and of document 02's notes 1, 2 and 4: the refusals by
//! their tables, and the results.
//!
//! It is written from the papers and not from the crate, for small inputs and without any care
//! for speed, so that it shows where the papers and the crate disagree. Nothing of it is proved.
#![forbid(unsafe_code)]

pub mod capture;
pub mod chunks;
pub mod cut;
pub mod fault_list;
pub mod filter;
pub mod merge;
pub mod name;
pub mod refusals;
pub mod rules;
pub mod similarity;
pub mod story;
pub mod ties;
pub mod trace;
pub mod utf8;

use text::{Answer, ChunkList, CutAnswer, CutOutcome, Question, tables};

use rules::{Rules, SOUND};

/// The answer, or the number of the refusal.
pub fn answer(question: &Question) -> Result<Answer, u32> {
    answer_by(SOUND, question)
}

/// The same by other rules. Faults are of whole builds, and of why there is no cut.
pub fn answer_by(rules: Rules, question: &Question) -> Result<Answer, u32> {
    match question {
        Question::Sim(sim) => {
            refuse(refusals::similarity(&sim.left, &sim.right))?;
            Ok(Answer::Sim(similarity::similarity(&sim.left, &sim.right)))
        }
        Question::Filter(filter) => {
            refuse(refusals::filter(filter))?;
            Ok(Answer::Filter(filter::passes(filter, SOUND)))
        }
        Question::Cut(cut) => {
            let tables = tables::of_cut(cut);
            refuse(refusals::cut(&tables))?;
            Ok(Answer::Cut(cut_answer(rules, &tables)))
        }
        Question::Capture(capture) => {
            let tables = tables::of_capture(capture);
            refuse(refusals::capture(&tables))?;
            Ok(Answer::Capture(capture_answer(&tables)))
        }
        Question::Merge(merge) => {
            let tables = tables::of_merge(merge);
            refuse(refusals::merge(&tables))?;
            Ok(Answer::Merge(merge_answer(&tables)))
        }
        Question::Name(question) => {
            let tables = tables::of_name(question);
            refuse(refusals::name(&tables))?;
            Ok(Answer::Name(name::name(&tables)))
        }
        Question::Chunks(chunks) => outcome(&tables::of_chunks(chunks), rules).map(Answer::Chunks),
    }
}

/// The chunk list of a build by these rules, or the number of the refusal.
pub fn outcome(tables: &tables::BuildTables, rules: Rules) -> Result<ChunkList, u32> {
    refuse(refusals::chunks(tables, rules))?;
    Ok(chunks::chunk_list_by(rules, tables).0)
}

/// The refusal as an error.
fn refuse(number: Option<u32>) -> Result<(), u32> {
    number.map_or(Ok(()), Err)
}

fn cut_answer(rules: Rules, tables: &tables::CutTables) -> CutOutcome {
    let tables::CutTables { minimum, maximum, sizes, .. } = tables;
    let ids: Vec<&[u8]> = (0..sizes.len()).map(|k| id(&tables.ids, &tables.offsets, k)).collect();
    match cut::cut(&ids, sizes, *minimum, *maximum) {
        Some((index, left, right)) => {
            let (left, right) = (left as f64, right as f64);
            CutOutcome::At(CutAnswer { index: index as u64, left, right })
        }
        None if cut::is_fewer(rules, sizes, *minimum) => CutOutcome::FewerThanTwo,
        None => CutOutcome::NoneAllowed,
    }
}

fn capture_answer(tables: &tables::CaptureTables) -> Vec<u8> {
    let modules = 0..tables.flags.len();
    let chains: Vec<Vec<usize>> = modules
        .map(|module| capture::chain(tables.first[module], &tables.dep_module, &tables.dep_next))
        .collect();
    let eligible: Vec<bool> = tables.flags.iter().map(|flags| capture::eligible(*flags)).collect();
    let captured = capture::capture(&eligible, &chains, tables.start as usize, tables.recursive);
    captured.into_iter().map(u8::from).collect()
}

fn merge_answer(tables: &tables::MergeTables) -> Vec<text::MergedSubgroup> {
    let subgroup = |k: usize| merge::Subgroup { size: tables.sizes[k], bits: row(&tables.bits, k) };
    let merged = merge::merge((0..tables.sizes.len()).map(subgroup).collect(), tables.threshold);
    let one = |k: usize| match merged.left[k] {
        Some(merge::Subgroup { size, bits }) => {
            text::MergedSubgroup { number: merged.number(k), size, bits }
        }
        None => text::MergedSubgroup { number: merged.number(k), size: 0, bits: [0; 4] },
    };
    (0..tables.sizes.len()).map(one).collect()
}

/// The id of a module or one of several names, as a part of the slice.
pub fn id<'a>(ids: &'a [u8], offsets: &[u32], module: usize) -> &'a [u8] {
    &ids[offsets[module] as usize..offsets[module + 1] as usize]
}

/// Four entry words of a table.
pub fn row(bits: &[u64], k: usize) -> [u64; 4] {
    [bits[4 * k], bits[4 * k + 1], bits[4 * k + 2], bits[4 * k + 3]]
}
