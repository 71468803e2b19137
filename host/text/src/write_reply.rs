//! Writes replies.

use std::fmt::{Display, Formatter, Result};

use crate::{Answer, Chunk, ChunkList, CutOutcome, Reply, write_case::Bytes};

impl Display for Reply {
    /// Whole lines, the last one ended too.
    fn fmt(&self, f: &mut Formatter<'_>) -> Result {
        write!(f, "{} {}", self.call.word(), self.tag)?;
        match &self.outcome {
            Err(number) => writeln!(f, " refused {number}")?,
            Ok(Answer::Chunks(list)) => chunk_list(f, list)?,
            Ok(answer) => leaf(f, answer)?,
        }
        self.warnings.iter().try_for_each(|warning| writeln!(f, "! {warning}"))
    }
}

/// The rest of a leaf's line.
fn leaf(f: &mut Formatter<'_>, answer: &Answer) -> Result {
    match answer {
        Answer::Sim(value) => write!(f, " {value}")?,
        Answer::Cut(CutOutcome::FewerThanTwo) => write!(f, " none fewer-than-two")?,
        Answer::Cut(CutOutcome::NoneAllowed) => write!(f, " none not-allowed")?,
        Answer::Cut(CutOutcome::At(cut)) => {
            let (left, right) = (cut.left, cut.right);
            write!(f, " {} {:016x} {:016x}", cut.index, left.to_bits(), right.to_bits())?;
            write!(f, " {left} {right}")?;
        }
        Answer::Capture(marks) => {
            write!(f, " ")?;
            marks.iter().try_for_each(|mark| write!(f, "{mark}"))?;
        }
        Answer::Filter(passes) => write!(f, " {}", u8::from(*passes))?,
        Answer::Merge(subgroups) => {
            for merged in subgroups {
                let [a, b, c, d] = merged.bits;
                write!(f, " {}:{}:{a:x}:{b:x}:{c:x}:{d:x}", merged.number, merged.size)?;
            }
        }
        Answer::Name(name) => write!(f, " {} {}", name.len(), Bytes(name))?,
        Answer::Chunks(_) => {}
    }
    writeln!(f)
}

/// The rest of a chunk list.
fn chunk_list(f: &mut Formatter<'_>, list: &ChunkList) -> Result {
    writeln!(f, " {}", list.chunks.len())?;
    list.chunks.iter().try_for_each(|one| chunk(f, one))?;
    write!(f, "m")?;
    list.chunk_of.iter().try_for_each(|number| write!(f, " {number}"))?;
    writeln!(f, "\nend")
}

fn chunk(f: &mut Formatter<'_>, chunk: &Chunk) -> Result {
    let [a, b, c, d] = chunk.bits;
    write!(f, "c {} {} {}", chunk.chunk, chunk.group, chunk.name)?;
    write!(f, " {:016x} {} {a:x} {b:x} {c:x} {d:x}", chunk.size.to_bits(), chunk.size)?;
    write!(f, " {}", chunk.mark)?;
    chunk.modules.iter().try_for_each(|module| write!(f, " {module}"))?;
    writeln!(f)
}
