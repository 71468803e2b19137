//! Reads the `with` lines, which damage the leaf call after them.

use crate::{Count, Damage, Question, Quoted, Table, TextError, words::Words};

/// What the `with` lines may say to one call: its tables, its counts, and how many areas it has.
struct Allowed {
    /// The tables of offsets that can be replaced, each with how many offsets it has.
    offsets: Vec<(Table, usize)>,
    tables: &'static [Table],
    counts: &'static [Count],
    areas: usize,
}

/// Puts the `with` lines into the question that follows them.
pub fn damaged(mut question: Question, withs: Vec<Words<'_>>) -> Result<Question, TextError> {
    let (allowed, damage) = match &mut question {
        Question::Cut(cut) => (cut_allows(cut.modules.len()), &mut cut.damage),
        Question::Merge(merge) => (MERGE_ALLOWS, &mut merge.damage),
        Question::Capture(capture) => (CAPTURE_ALLOWS, &mut capture.damage),
        Question::Name(name) => {
            let counts = (name.group_names.len(), name.entry_names.len());
            (name_allows(counts), &mut name.damage)
        }
        _ => {
            return match withs.first() {
                None => Ok(question),
                Some(with) => {
                    with.error(format!("`with` can't stand before `{}`", question.call().word()))
                }
            };
        }
    };
    for with in withs {
        with_line(with, &allowed, damage)?;
    }
    Ok(question)
}

/// Cut: its own offsets, of which there are one more than modules.
fn cut_allows(modules: usize) -> Allowed {
    Allowed {
        offsets: vec![(Table::Offsets, modules + 1)],
        tables: &[Table::Offsets, Table::Sizes],
        counts: &[Count::N],
        areas: 0,
    }
}

/// Name: both tables of offsets, of which there are one more than names.
fn name_allows((names, entries): (usize, usize)) -> Allowed {
    Allowed {
        offsets: vec![(Table::NameOffsets, names + 1), (Table::EntryOffsets, entries + 1)],
        tables: &[Table::NameOffsets, Table::EntryOffsets],
        counts: &[Count::K, Count::E],
        areas: 1,
    }
}

const MERGE_ALLOWS: Allowed = Allowed {
    offsets: Vec::new(),
    tables: &[Table::Sizes, Table::Bits],
    counts: &[Count::K, Count::E],
    areas: 3,
};

const CAPTURE_ALLOWS: Allowed = Allowed {
    offsets: Vec::new(),
    tables: &[Table::Flags, Table::First, Table::DepModule, Table::DepNext],
    counts: &[Count::N, Count::D],
    areas: 2,
};

/// Reads one `with` line, whose first word has been read.
fn with_line(
    mut words: Words<'_>,
    allowed: &Allowed,
    damage: &mut Damage,
) -> Result<(), TextError> {
    match words.word("offsets, len, count or areas")? {
        "len" => damage.lengths.push(length_line(&mut words, allowed.tables)?),
        "count" => damage.counts.push(count_line(&mut words, allowed.counts)?),
        "areas" if allowed.areas > 0 => {
            damage.areas = Some(words.times(allowed.areas, |words| words.area("LENGTH"))?);
        }
        "areas" => return words.error("the call that follows has no areas"),
        word => offsets_line(word, &mut words, &allowed.offsets, damage)?,
    }
    words.end()
}

/// `TABLE O0 ..`, one of these tables of offsets, of which the first word has been read.
fn offsets_line(
    word: &str,
    words: &mut Words<'_>,
    tables: &[(Table, usize)],
    damage: &mut Damage,
) -> Result<(), TextError> {
    let Some((table, count)) = tables.iter().find(|(table, _)| table.word() == word) else {
        let is_other = ["offsets", "name_offsets", "entry_offsets"].contains(&word);
        return match is_other {
            true => words.error(format!("the call that follows has no {word}")),
            false => words.error(format!("`with` can't be followed by `{}`", Quoted(word))),
        };
    };
    let offsets = words.times(*count, |words| words.number("an offset"))?;
    let place = match table {
        Table::NameOffsets => &mut damage.name_offsets,
        Table::EntryOffsets => &mut damage.entry_offsets,
        _ => &mut damage.offsets,
    };
    *place = Some(offsets);
    Ok(())
}

/// `TABLE LENGTH`, one of these tables.
pub fn length_line(words: &mut Words<'_>, tables: &[Table]) -> Result<(Table, usize), TextError> {
    let word = words.word("TABLE")?;
    let table = Table::named().find(|(table, name)| *name == word && tables.contains(table));
    match table {
        Some((table, _)) => Ok((table, words.length("LENGTH")?)),
        None => words.error(format!("the call has no table `{}`", Quoted(word))),
    }
}

/// `COUNT VALUE`, one of these counts.
pub fn count_line(words: &mut Words<'_>, counts: &[Count]) -> Result<(Count, u64), TextError> {
    let word = words.word("a count")?;
    let count =
        Count::ALL.into_iter().find(|(count, name)| *name == word && counts.contains(count));
    match count {
        Some((count, _)) => Ok((count, words.number("VALUE")?)),
        None => words.error(format!("the call has no count `{}`", Quoted(word))),
    }
}
