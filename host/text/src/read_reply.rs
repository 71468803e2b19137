//! Reads replies, to compare them with others.

use crate::{
    Answer, Call, Chunk, ChunkList, CutAnswer, CutOutcome, MergedSubgroup, Quoted, Reply,
    TextError,
    lines::Lines,
    words::{Words, decimal, hexadecimal},
};

/// The next reply of a text, or `None` at its end. A line that begins with `!` is an error here.
pub fn next_reply(lines: &mut Lines<'_>) -> Result<Option<Reply>, TextError> {
    let Some(mut words) = lines.between()? else {
        return Ok(None);
    };
    let word = words.word("a call")?;
    let Some(call) = Call::ALL.into_iter().find(|call| call.word() == word) else {
        return words.error(format!("a reply can't begin with `{}`", Quoted(word)));
    };
    let tag = words.word("TAG")?.to_string();
    let mut ahead = words.clone();
    let outcome = if ahead.exactly("refused").is_ok() {
        let number = ahead.number("NUMBER")?;
        ahead.end()?;
        Err(number)
    } else {
        Ok(answer(lines, call, &mut words)?)
    };
    Ok(Some(Reply { tag, call, outcome, warnings: Vec::new() }))
}

/// The answer of a call, of whose line the tag has been read.
fn answer(lines: &mut Lines<'_>, call: Call, words: &mut Words<'_>) -> Result<Answer, TextError> {
    let answer = match call {
        Call::Similarity => Answer::Sim(words.number("VALUE")?),
        Call::Cut => Answer::Cut(cut(words)?),
        Call::Capture => Answer::Capture(marks(words)?),
        Call::Filter => Answer::Filter(words.yes("the answer")?),
        Call::Merge => Answer::Merge(words.all(merged)?),
        Call::Name => Answer::Name(name(words)?),
        Call::Chunks => Answer::Chunks(chunk_list(lines, words)?),
    };
    words.end()?;
    Ok(answer)
}

fn cut(words: &mut Words<'_>) -> Result<CutOutcome, TextError> {
    if words.clone().exactly("none").is_ok() {
        words.word("none")?;
        return none(words);
    }
    let index = words.number("INDEX")?;
    let answer =
        CutAnswer { index, left: words.double("LEFT_BITS")?, right: words.double("RIGHT_BITS")? };
    size(words, answer.left)?;
    size(words, answer.right)?;
    Ok(CutOutcome::At(answer))
}

/// Why there is no cut.
fn none(words: &mut Words<'_>) -> Result<CutOutcome, TextError> {
    match words.word("fewer-than-two or not-allowed")? {
        "fewer-than-two" => Ok(CutOutcome::FewerThanTwo),
        "not-allowed" => Ok(CutOutcome::NoneAllowed),
        word => {
            let word = Quoted(word);
            words.error(format!("none is `fewer-than-two` or `not-allowed`, not `{word}`"))
        }
    }
}

/// The decimal form of a size that has been read by its bits.
fn size(words: &mut Words<'_>, expected: f64) -> Result<(), TextError> {
    let word = words.word("a decimal size")?;
    if word != expected.to_string() {
        return words.error(format!("the decimal size {word} isn't that of the bits, {expected}"));
    }
    Ok(())
}

fn marks(words: &mut Words<'_>) -> Result<Vec<u8>, TextError> {
    if words.is_at_end() {
        return Ok(Vec::new());
    }
    let word = words.word("MARKS")?;
    if word.bytes().all(|digit| digit == b'0' || digit == b'1') {
        return Ok(word.bytes().map(|digit| digit - b'0').collect());
    }
    words.error(format!("marks are ones and zeros: `{}`", Quoted(word)))
}

fn merged(words: &mut Words<'_>) -> Result<MergedSubgroup, TextError> {
    let word = words.word("a subgroup")?;
    let parts: Vec<&str> = word.split(':').collect();
    match subgroup(&parts) {
        Some(subgroup) => Ok(subgroup),
        None => {
            words.error(format!("a subgroup is FINAL:SIZE:W0:W1:W2:W3, not `{}`", Quoted(word)))
        }
    }
}

fn subgroup(parts: &[&str]) -> Option<MergedSubgroup> {
    let [number, size, a, b, c, d] = parts else {
        return None;
    };
    let bits = [hexadecimal(a)?, hexadecimal(b)?, hexadecimal(c)?, hexadecimal(d)?];
    Some(MergedSubgroup { number: decimal(number)?, size: decimal(size)?, bits })
}

fn name(words: &mut Words<'_>) -> Result<Vec<u8>, TextError> {
    let length: usize = words.number("LENGTH")?;
    let name = words.bytes("NAME")?;
    if name.len() != length {
        return words.error(format!("a name of {} bytes isn't one of {length}", name.len()));
    }
    Ok(name)
}

fn chunk_list(lines: &mut Lines<'_>, words: &mut Words<'_>) -> Result<ChunkList, TextError> {
    let count = words.length("COUNT")?;
    let chunks = (0..count).map(|_| chunk(lines)).collect::<Result<_, _>>()?;
    let mut words = lines.inside("a line `m`")?;
    words.exactly("m")?;
    let chunk_of = words.all(|words| words.number("CHUNK_PLUS_1"))?;
    let mut words = lines.inside("`end`")?;
    words.exactly("end")?;
    words.end()?;
    Ok(ChunkList { chunks, chunk_of })
}

fn chunk(lines: &mut Lines<'_>) -> Result<Chunk, TextError> {
    let mut words = lines.inside("a line `c`")?;
    words.exactly("c")?;
    let (chunk, group) = (words.number("CHUNK")?, words.number("GROUP")?);
    let (name, chunk_size) = (words.number("NAME")?, words.double("SIZE_BITS")?);
    size(&mut words, chunk_size)?;
    let (bits, mark) = (words.bits()?, mark(&mut words)?);
    let modules = words.all(|words| words.number("MODULE"))?;
    Ok(Chunk { chunk, group, name, size: chunk_size, bits, mark, modules })
}

/// Why a chunk is too large, if it is.
fn mark(words: &mut Words<'_>) -> Result<u8, TextError> {
    match words.number("MARK")? {
        mark @ 0..=2 => Ok(mark),
        mark => words.error(format!("MARK is 0, 1 or 2, not {mark}")),
    }
}
