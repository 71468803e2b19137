//! Writes cases.

use std::fmt::{Display, Formatter, LowerHex, Result};

use crate::{
    Build, Capture, Case, Chunks, Cut, Damage, Filter, Group, Merge, Module, Name, Options,
    Question, Table,
};

impl Display for Case {
    /// Whole lines, the last one ended too.
    fn fmt(&self, f: &mut Formatter<'_>) -> Result {
        if let (Some(damage), false) = (self.question.damage(), self.is_build()) {
            damage_lines(f, damage, "with ")?;
        }
        write!(f, "{} {}", self.question.call().word(), self.tag)?;
        match &self.question {
            Question::Sim(sim) => write!(f, " {} {}", Bytes(&sim.left), Bytes(&sim.right))?,
            Question::Cut(question) => cut(f, question)?,
            Question::Capture(question) => capture(f, question)?,
            Question::Filter(question) => filter(f, question)?,
            Question::Merge(question) => merge(f, question)?,
            Question::Name(question) => name(f, question)?,
            Question::Chunks(question) => chunks(f, question)?,
        }
        writeln!(f)
    }
}

impl Case {
    /// Whether it is a whole build.
    fn is_build(&self) -> bool {
        matches!(self.question, Question::Chunks(_))
    }
}

/// Bytes as hexadecimal pairs, or `.` for none.
pub struct Bytes<'a>(pub &'a [u8]);

impl Display for Bytes<'_> {
    fn fmt(&self, f: &mut Formatter<'_>) -> Result {
        if self.0.is_empty() {
            return write!(f, ".");
        }
        self.0.iter().try_for_each(|byte| write!(f, "{byte:02x}"))
    }
}

/// A double by its bits, or `-`.
struct Double(Option<f64>);

impl Display for Double {
    fn fmt(&self, f: &mut Formatter<'_>) -> Result {
        match self.0 {
            Some(double) => write!(f, "{:016x}", double.to_bits()),
            None => write!(f, "-"),
        }
    }
}

/// A number, or `-`.
struct Number(Option<u32>);

impl Display for Number {
    fn fmt(&self, f: &mut Formatter<'_>) -> Result {
        match self.0 {
            Some(number) => write!(f, "{number}"),
            None => write!(f, "-"),
        }
    }
}

/// A yes or no as a number.
fn yes(flag: Option<bool>) -> Number {
    Number(flag.map(u32::from))
}

/// Items, each after a blank.
fn each<T: Display>(f: &mut Formatter<'_>, items: impl IntoIterator<Item = T>) -> Result {
    items.into_iter().try_for_each(|item| write!(f, " {item}"))
}

/// Words in hexadecimal, each after a blank.
fn each_hex<T: LowerHex>(f: &mut Formatter<'_>, items: impl IntoIterator<Item = T>) -> Result {
    items.into_iter().try_for_each(|item| write!(f, " {item:x}"))
}

fn cut(f: &mut Formatter<'_>, cut: &Cut) -> Result {
    let limits = [cut.minimum, cut.maximum].map(|limit| Double(Some(limit)));
    write!(f, " {}", cut.modules.len())?;
    each(f, limits)?;
    cut.modules.iter().try_for_each(|(id, size)| write!(f, " {} {size}", Bytes(id)))
}

fn merge(f: &mut Formatter<'_>, merge: &Merge) -> Result {
    write!(f, " {} {} {}", merge.subgroups.len(), merge.entries, Double(merge.threshold))?;
    for subgroup in &merge.subgroups {
        write!(f, " {}", subgroup.size)?;
        each_hex(f, subgroup.bits)?;
    }
    Ok(())
}

fn filter(f: &mut Formatter<'_>, filter: &Filter) -> Result {
    write!(f, " {:x} {}", filter.mask, Double(filter.min_module_size))?;
    write!(f, " {} {}", Double(filter.max_module_size), Number(filter.min_share_count))?;
    write!(f, " {:x} {} {}", filter.tags, filter.size, filter.share_count)
}

fn capture(f: &mut Formatter<'_>, capture: &Capture) -> Result {
    write!(f, " {} {}", capture.flags.len(), capture.records.len())?;
    write!(f, " {} {}", u8::from(capture.recursive), capture.start)?;
    each(f, &capture.flags)?;
    each(f, &capture.first)?;
    capture.records.iter().try_for_each(|record| write!(f, " {} {}", record.module, record.next))
}

fn name(f: &mut Formatter<'_>, name: &Name) -> Result {
    let Name { group_names, entry_names, number, entries_aware, bits, hash, .. } = name;
    write!(f, " {} {}", group_names.len(), entry_names.len())?;
    write!(f, " {number} {}", u8::from(*entries_aware))?;
    each_hex(f, *bits)?;
    write!(f, " {}", Bytes(hash))?;
    each(f, group_names.iter().chain(entry_names).map(|name| Bytes(name)))
}

/// All of a build but the end of its last line.
fn chunks(f: &mut Formatter<'_>, chunks: &Chunks) -> Result {
    let Build { entries, names, count_on_entry, options: global, .. } = &chunks.build;
    let Build { modules, records, groups, answers, .. } = &chunks.build;
    write!(f, " {} {} {entries} {names}", modules.len(), groups.len())?;
    writeln!(f, " {} {count_on_entry}", records.len())?;
    write!(f, "o")?;
    options(f, global)?;
    writeln!(f)?;
    modules.iter().try_for_each(|one| module(f, one))?;
    records.iter().try_for_each(|record| writeln!(f, "d {} {}", record.module, record.next))?;
    groups.iter().try_for_each(|one| group(f, one))?;
    for answers in answers {
        write!(f, "a")?;
        each(f, answers)?;
        writeln!(f)?;
    }
    damage_lines(f, &chunks.damage, "")?;
    write!(f, "end")
}

fn options(f: &mut Formatter<'_>, options: &Options) -> Result {
    let sizes = [options.min_size, options.max_size];
    each(f, sizes.map(Double))?;
    each(f, [options.min_module_size, options.max_module_size].map(Double))?;
    each(f, [Number(options.min_share_count), yes(options.recursive)])
}

fn module(f: &mut Formatter<'_>, module: &Module) -> Result {
    write!(f, "m {} {} {}", module.flags, module.size, module.order)?;
    write!(f, " {} {:x}", module.share_count, module.tags)?;
    each_hex(f, module.bits)?;
    writeln!(f, " {} {}", module.first_record, Bytes(&module.id))
}

fn group(f: &mut Formatter<'_>, group: &Group) -> Result {
    write!(f, "g")?;
    options(f, &group.options)?;
    write!(f, " {:x} {}", group.mask, Number(group.priority))?;
    writeln!(f, " {} {}", yes(group.entries_aware), Double(group.threshold))
}

/// The lines that damage a case, each with something before it.
fn damage_lines(f: &mut Formatter<'_>, damage: &Damage, before: &str) -> Result {
    for (table, offsets) in [
        (Table::Offsets, &damage.offsets),
        (Table::NameOffsets, &damage.name_offsets),
        (Table::EntryOffsets, &damage.entry_offsets),
    ] {
        numbers_line(f, before, table.word(), offsets.as_deref())?;
    }
    for (table, length) in &damage.lengths {
        writeln!(f, "{before}len {} {length}", table.word())?;
    }
    for (count, value) in &damage.counts {
        writeln!(f, "{before}count {} {value}", count.word())?;
    }
    numbers_line(f, before, "areas", damage.areas.as_deref())?;
    numbers_line(f, before, "records", damage.records.as_deref())
}

/// A line of numbers after a word, if there are any.
fn numbers_line<T: Display>(
    f: &mut Formatter<'_>,
    before: &str,
    word: &str,
    numbers: Option<&[T]>,
) -> Result {
    let Some(numbers) = numbers else {
        return Ok(());
    };
    write!(f, "{before}{word}")?;
    each(f, numbers)?;
    writeln!(f)
}
