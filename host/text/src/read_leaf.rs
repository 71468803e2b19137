//! Reads a leaf call, with the `with` lines before it, and finds the start of a build.

use crate::{
    Capture, Case, Cut, Damage, Filter, Merge, Name, Question, Quoted, Sim, Subgroup, TextError,
    lines::Lines, read_build, with_lines::damaged, words::Words,
};

/// The next case of a text, or `None` at its end.
pub fn next_case(lines: &mut Lines<'_>) -> Result<Option<Case>, TextError> {
    let mut withs = Vec::new();
    loop {
        let Some(mut words) = lines.between()? else {
            return match withs.is_empty() {
                true => Ok(None),
                false => Err(lines.error("the text ends after `with`, without a call".into())),
            };
        };
        match words.word("a call")? {
            "with" => withs.push(words),
            command => {
                lines.begin_case();
                return case(lines, command, words, withs).map(Some);
            }
        }
    }
}

/// A case whose first word has been read.
fn case(
    lines: &mut Lines<'_>,
    command: &str,
    mut words: Words<'_>,
    withs: Vec<Words<'_>>,
) -> Result<Case, TextError> {
    let known = ["chunks", "sim", "cut", "merge", "filter", "capture", "name"];
    if !known.contains(&command) {
        return words.error(format!("unknown call `{}`", Quoted(command)));
    }
    let tag = words.word("TAG")?.to_string();
    let question = match command {
        "chunks" => Question::Chunks(Box::new(read_build::chunks(lines, &mut words)?)),
        "sim" => Question::Sim(sim(&mut words)?),
        "cut" => Question::Cut(cut(&mut words)?),
        "merge" => Question::Merge(merge(&mut words)?),
        "filter" => Question::Filter(filter(&mut words)?),
        "name" => Question::Name(Box::new(name(&mut words)?)),
        _ => Question::Capture(capture(&mut words)?),
    };
    Ok(Case { tag, question: damaged(question, withs)? })
}

fn sim(words: &mut Words<'_>) -> Result<Sim, TextError> {
    let sim = Sim { left: words.bytes("the first ID")?, right: words.bytes("the second ID")? };
    words.end()?;
    Ok(sim)
}

fn cut(words: &mut Words<'_>) -> Result<Cut, TextError> {
    let count = words.length("N")?;
    let minimum = words.double("MINIMUM")?;
    let maximum = words.double("MAXIMUM")?;
    let modules = words.times(count, |words| Ok((words.bytes("ID")?, words.number("SIZE")?)))?;
    words.end()?;
    Ok(Cut { minimum, maximum, modules, damage: Damage::default() })
}

fn merge(words: &mut Words<'_>) -> Result<Merge, TextError> {
    let count = words.length("K")?;
    let entries = words.number("E")?;
    let threshold = words.option("THRESHOLD", Words::double)?;
    let subgroups = words
        .times(count, |words| Ok(Subgroup { size: words.number("SIZE")?, bits: words.bits()? }))?;
    words.end()?;
    Ok(Merge { entries, threshold, subgroups, damage: Damage::default() })
}

fn filter(words: &mut Words<'_>) -> Result<Filter, TextError> {
    let filter = Filter {
        mask: words.hex("MASK")?,
        min_module_size: words.option("MIN_MODULE_SIZE", Words::double)?,
        max_module_size: words.option("MAX_MODULE_SIZE", Words::double)?,
        min_share_count: words.option("MIN_SHARE_COUNT", Words::number)?,
        tags: words.hex("TAGS")?,
        size: words.number("SIZE")?,
        share_count: words.number("SHARE_COUNT")?,
    };
    words.end()?;
    Ok(filter)
}

fn capture(words: &mut Words<'_>) -> Result<Capture, TextError> {
    let modules = words.length("N")?;
    let records = words.length("D")?;
    let capture = Capture {
        recursive: words.yes("RECURSIVE")?,
        start: words.number("START")?,
        flags: words.times(modules, |words| words.number("FLAGS"))?,
        first: words.times(modules, |words| words.number("FIRST_RECORD"))?,
        records: words.times(records, Words::record)?,
        damage: Damage::default(),
    };
    words.end()?;
    Ok(capture)
}

fn name(words: &mut Words<'_>) -> Result<Name, TextError> {
    let names = words.length("K")?;
    let entries = words.length("E")?;
    let name = Name {
        number: words.number("NUMBER")?,
        entries_aware: words.yes("AWARE")?,
        bits: words.bits()?,
        hash: words.bytes("HASH")?,
        group_names: words.times(names, |words| words.bytes("a group's name"))?,
        entry_names: words.times(entries, |words| words.bytes("an entry's name"))?,
        damage: Damage::default(),
    };
    words.end()?;
    Ok(name)
}
