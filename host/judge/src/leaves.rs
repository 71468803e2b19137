//! Leaf calls, put to one copy of the crate's text.

use oxc_index::Idx;
use rolldown_common::{ModuleIdx, ModuleTable};
use rolldown_utils::BitSet;
use rustc_hash::order::under;
use text::{
    Build, Capture, Cut, CutAnswer, CutOutcome, Filter, Group, Merge, MergedSubgroup, Module,
    Options, Sim,
};

use crate::{
    Callbacks, CrateText, Judge, Outside, RemainingSubgroup, World,
    bits::{bit_set, words},
    groups::with_options,
    world::module_table,
};

/// Similarity of two ids.
pub fn similarity(text: &CrateText, sim: &Sim) -> Result<u32, Outside> {
    let value = (text.similarity)(id_text(&sim.left)?, id_text(&sim.right)?);
    u32::try_from(value).map_err(|_| Outside::Broken(format!("similarity {value}")))
}

/// A cut of modules in the order given. The text has one none; which of the papers' two it is
/// follows from the count of modules.
pub fn cut(text: &CrateText, cut: &Cut) -> Result<CutOutcome, Outside> {
    let ids = cut.modules.iter().map(|(id, _)| id_text(id)).collect::<Result<Vec<_>, _>>()?;
    let sizes: Vec<f64> = cut.modules.iter().map(|(_, size)| *size as f64).collect();
    Ok(match (text.cut)(&ids, &sizes, cut.minimum, cut.maximum) {
        Some((index, left, right)) => {
            CutOutcome::At(CutAnswer { index: index as u64, left, right })
        }
        None if cut.modules.len() < 2 => CutOutcome::FewerThanTwo,
        None => CutOutcome::NoneAllowed,
    })
}

/// A capture from a start module.
pub fn capture(text: &CrateText, capture: &Capture) -> Result<Vec<u8>, Outside> {
    let world = capture_world(capture)?;
    let start = ModuleIdx::from_usize(capture.start as usize);
    let mut marks = vec![0; capture.flags.len()];
    for module in (text.capture)(&world, start, capture.recursive) {
        marks[module.index()] = 1;
    }
    Ok(marks)
}

/// The world of a capture: modules with flags and dependencies alone.
pub fn capture_world(capture: &Capture) -> Result<World, Outside> {
    let flags = capture.flags.iter().zip(&capture.first);
    let module = |(flags, first): (&u8, &u32)| Module {
        flags: *flags,
        first_record: *first,
        ..Module::default()
    };
    let build = Build {
        modules: flags.map(module).collect(),
        records: capture.records.clone(),
        ..Build::default()
    };
    World::new(&build, Vec::new())
}

/// The filter on one module. The limits are given to the group, or else to the build as a whole.
pub fn filter(judge: &Judge, filter: &Filter) -> Result<bool, Outside> {
    let module = Module {
        flags: 3,
        size: filter.size,
        share_count: filter.share_count,
        tags: filter.tags,
        ..Module::default()
    };
    let options = Options {
        min_module_size: filter.min_module_size,
        max_module_size: filter.max_module_size,
        min_share_count: filter.min_share_count,
        ..Options::default()
    };
    let mut group = Group { options, mask: filter.mask, ..Group::default() };
    let mut build = Build { modules: vec![module], ..Build::default() };
    if judge.callbacks == Callbacks::Plainest {
        std::mem::swap(&mut group.options, &mut build.options);
    }
    Ok((judge.text.filter)(&World::new(&build, vec![with_options(&group)])?))
}

/// A merge of subgroups, each with one module of its size.
pub fn merge(judge: &Judge, merge: &Merge) -> Result<Vec<MergedSubgroup>, Outside> {
    let (module_table, bits) = merge_tables(merge)?;
    let threshold = merge.threshold.unwrap_or(0.0);
    let numbers: Vec<u32> = (0..).take(bits.len()).collect();
    let orders = judge.walk.orders(&numbers, &numbers);
    let left = under(orders, || (judge.text.merge)(&module_table, &bits, threshold));
    merged(bits.len(), left)
}

/// The modules and the entry bits of a merge, one of each for a subgroup.
pub fn merge_tables(merge: &Merge) -> Result<(ModuleTable, Vec<BitSet>), Outside> {
    let module = |size| Module { flags: 3, size, ..Module::default() };
    let modules: Vec<_> = merge.subgroups.iter().map(|subgroup| module(subgroup.size)).collect();
    let bits = merge.subgroups.iter().map(|subgroup| bit_set(merge.entries, subgroup.bits));
    Ok((module_table(&modules)?, bits.collect()))
}

/// What came of each of so many subgroups.
pub fn merged(count: usize, left: Vec<RemainingSubgroup>) -> Result<Vec<MergedSubgroup>, Outside> {
    let vanished = MergedSubgroup { number: u32::MAX, size: 0, bits: [0; 4] };
    let mut merged = vec![vanished; count];
    for remaining in left {
        for module in remaining.modules {
            merged[module.index()].number = remaining.key;
        }
        merged[remaining.key as usize].size = whole_number(remaining.size)?;
        merged[remaining.key as usize].bits = words(&remaining.bits);
    }
    Ok(merged)
}

/// The crate's ids are texts.
pub fn id_text(id: &[u8]) -> Result<&str, Outside> {
    std::str::from_utf8(id).map_err(|_| Outside::IdIsNoText)
}

/// A size as the whole number that it has to be.
fn whole_number(size: f64) -> Result<u64, Outside> {
    let whole = size as u64;
    if (whole as f64).to_bits() == size.to_bits() {
        return Ok(whole);
    }
    Err(Outside::Broken(format!("a size of {size}")))
}
