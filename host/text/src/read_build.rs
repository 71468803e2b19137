//! Reads a whole build.

use crate::{
    Build, Chunks, Count, Damage, Group, Module, Quoted, Table, TextError,
    lines::Lines,
    with_lines::{count_line, length_line},
    words::Words,
};

/// The counts of a build as its first line has them.
struct Head {
    modules: usize,
    groups: usize,
    records: usize,
}

/// A build, of whose first line the tag has been read.
pub fn chunks(lines: &mut Lines<'_>, words: &mut Words<'_>) -> Result<Chunks, TextError> {
    let mut build = Build::default();
    let head = head(words, &mut build)?;
    build.options = one(lines, "o", Words::options)?;
    build.modules = many(lines, head.modules, "m", module)?;
    build.records = many(lines, head.records, "d", Words::record)?;
    build.groups = many(lines, head.groups, "g", group)?;
    build.answers = many(lines, head.groups, "a", |words| {
        words.times(head.modules, |words| words.number("ANSWER"))
    })?;
    Ok(Chunks { damage: damage(lines, head.modules)?, build })
}

/// `N G E K D COUNT_ON_ENTRY`.
fn head(words: &mut Words<'_>, build: &mut Build) -> Result<Head, TextError> {
    let modules = words.length("N")?;
    let groups = words.length("G")?;
    build.entries = words.number("E")?;
    build.names = words.number("K")?;
    let records = words.length("D")?;
    build.count_on_entry = words.number("COUNT_ON_ENTRY")?;
    words.end()?;
    Ok(Head { modules, groups, records })
}

/// One line that begins with a letter.
fn one<'a, T>(
    lines: &mut Lines<'a>,
    letter: &str,
    mut read: impl FnMut(&mut Words<'a>) -> Result<T, TextError>,
) -> Result<T, TextError> {
    let mut words = lines.inside(&format!("a line `{letter}`"))?;
    words.exactly(letter)?;
    let item = read(&mut words)?;
    words.end()?;
    Ok(item)
}

/// As many lines as said, each beginning with a letter.
fn many<'a, T>(
    lines: &mut Lines<'a>,
    count: usize,
    letter: &str,
    mut read: impl FnMut(&mut Words<'a>) -> Result<T, TextError>,
) -> Result<Vec<T>, TextError> {
    (0..count).map(|_| one(lines, letter, &mut read)).collect()
}

fn module(words: &mut Words<'_>) -> Result<Module, TextError> {
    Ok(Module {
        flags: words.number("FLAGS")?,
        size: words.number("SIZE")?,
        order: words.number("ORDER")?,
        share_count: words.number("SHARE_COUNT")?,
        tags: words.hex("TAGS")?,
        bits: words.bits()?,
        first_record: words.number("FIRST_RECORD")?,
        id: words.bytes("ID")?,
    })
}

fn group(words: &mut Words<'_>) -> Result<Group, TextError> {
    Ok(Group {
        options: words.options()?,
        mask: words.hex("MASK")?,
        priority: words.option("PRIORITY", Words::number)?,
        entries_aware: words.option("ENTRIES_AWARE", Words::yes)?,
        threshold: words.option("THRESHOLD", Words::double)?,
    })
}

/// The words that a line after the answers may begin with, in their fixed order.
const STEPS: [&str; 6] = ["offsets", "len", "count", "areas", "records", "end"];

/// The lines up to `end`.
fn damage(lines: &mut Lines<'_>, modules: usize) -> Result<Damage, TextError> {
    let mut damage = Damage::default();
    let mut stage = 0;
    loop {
        let mut words = lines.inside("`end`")?;
        let step = step(&mut words, stage)?;
        match STEPS[step] {
            "offsets" => {
                damage.offsets = Some(words.times(modules + 1, |words| words.number("an offset"))?);
            }
            "len" => damage.lengths.push(length_line(&mut words, &all_tables())?),
            "count" => damage.counts.push(count_line(&mut words, &all_counts())?),
            "areas" => damage.areas = Some(words.times(4, |words| words.area("LENGTH"))?),
            "records" => damage.records = Some(words.times(6, |words| words.area("LENGTH"))?),
            _ => {
                words.end()?;
                return Ok(damage);
            }
        }
        words.end()?;
        let may_be_repeated = ["len", "count"].contains(&STEPS[step]);
        stage = if may_be_repeated { step } else { step + 1 };
    }
}

/// The place of the line's first word among the steps, not before `stage`.
fn step(words: &mut Words<'_>, stage: usize) -> Result<usize, TextError> {
    let word = words.word("`end`")?;
    match STEPS.iter().position(|step| *step == word) {
        None => words.error(format!("`end` is expected, not `{}`", Quoted(word))),
        Some(step) if step < stage => words.error(format!("`{word}` comes too late here")),
        Some(step) => Ok(step),
    }
}

fn all_tables() -> Vec<Table> {
    Table::of_builds().map(|(table, _)| table).collect()
}

fn all_counts() -> Vec<Count> {
    Count::ALL.into_iter().map(|(count, _)| count).collect()
}
