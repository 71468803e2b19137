//! The marks of chunks. The crate has none, so they are worked out from the chunks that it made: from
//! each one's own modules, the limits of its group, and the text's own cut.

use text::{Build, Chunk, ChunkList, Module};

use crate::{CrateText, Outside, leaves::id_text};

/// Within the maximum or without one; above it with one module; above it with no cut allowed.
const WITHIN: u8 = 0;
const ONE_MODULE: u8 = 1;
const NO_CUT_ALLOWED: u8 = 2;

/// Puts its mark into each chunk of a list that this copy of the text made.
pub fn mark(text: &CrateText, build: &Build, list: &mut ChunkList) -> Result<(), Outside> {
    for chunk in &mut list.chunks {
        chunk.mark = mark_of(text, build, chunk)?;
    }
    Ok(())
}

/// The mark of one chunk. The text cuts what is above its maximum wherever it can, so a chunk that is
/// above it and that its own cut would still cut is a failure of the text.
fn mark_of(text: &CrateText, build: &Build, chunk: &Chunk) -> Result<u8, Outside> {
    let modules = in_id_order(build, chunk);
    let sizes: Vec<f64> = modules.iter().map(|module| module.size as f64).collect();
    let (minimum, maximum) = limits(build, chunk.group);
    let Some(maximum) = maximum.filter(|maximum| sizes.iter().sum::<f64>() > *maximum) else {
        return Ok(WITHIN);
    };
    if modules.len() < 2 {
        return Ok(ONE_MODULE);
    }
    let ids = modules.iter().map(|module| id_text(&module.id)).collect::<Result<Vec<_>, _>>()?;
    match (text.cut)(&ids, &sizes, minimum, maximum) {
        None => Ok(NO_CUT_ALLOWED),
        Some((index, _, _)) => Err(Outside::Broken(format!(
            "chunk {} is above its maximum of {maximum}, and the text would cut it at {index}",
            chunk.chunk
        ))),
    }
}

/// A chunk's modules as the text orders them before it cuts.
fn in_id_order<'a>(build: &'a Build, chunk: &Chunk) -> Vec<&'a Module> {
    let module = |number: &u32| &build.modules[*number as usize];
    let mut modules: Vec<&Module> = chunk.modules.iter().map(module).collect();
    modules.sort_unstable_by_key(|module| (&module.id, module.order));
    modules
}

/// The min_size and the max_size of a group as the text takes them: an absent minimum is 0.
fn limits(build: &Build, group: u32) -> (f64, Option<f64>) {
    let (own, global) = (&build.groups[group as usize].options, &build.options);
    let minimum = own.min_size.map_or(global.min_size, Some).unwrap_or(0.0);
    (minimum, own.max_size.map_or(global.max_size, Some))
}

#[cfg(test)]
mod tests {
    use text::{Answer, Build, Chunk, Chunks, Damage, Group, Module, Options, Question};

    use super::mark_of;
    use crate::{Judge, Outside, copies::unchanged::TEXT};

    /// Modules of these sizes in one group with these limits.
    fn sized(sizes: &[u64], min_size: Option<f64>, max_size: Option<f64>) -> Build {
        let module = |(order, size): (u32, &u64)| Module {
            flags: 3,
            size: *size,
            order,
            id: format!("m{order}").into_bytes(),
            ..Module::default()
        };
        let options = Options { min_size, max_size, ..Options::default() };
        Build {
            names: 1,
            modules: (0..).zip(sizes).map(module).collect(),
            groups: vec![Group { options, ..Group::default() }],
            answers: vec![vec![2; sizes.len()]],
            ..Build::default()
        }
    }

    /// The size and the mark of each chunk that the text makes.
    fn marks(build: Build) -> Vec<(f64, u8)> {
        let chunks = Chunks { build, damage: Damage::default() };
        match Judge::default().answer(&Question::Chunks(Box::new(chunks))) {
            Ok(Answer::Chunks(list)) => {
                list.chunks.iter().map(|one| (one.size, one.mark)).collect()
            }
            other => panic!("{other:?}"),
        }
    }

    #[test]
    fn each_chunk_has_the_mark_of_its_own_modules() {
        assert_eq!(marks(sized(&[5], None, None)), [(5.0, 0)]);
        assert_eq!(marks(sized(&[5], None, Some(5.0))), [(5.0, 0)]);
        assert_eq!(marks(sized(&[5], None, Some(4.0))), [(5.0, 1)]);
        assert_eq!(marks(sized(&[5, 5], Some(6.0), Some(6.0))), [(10.0, 2)]);
        assert_eq!(marks(sized(&[9, 1], None, Some(5.0))), [(1.0, 0), (9.0, 1)]);
    }

    #[test]
    fn a_group_without_limits_has_the_global_ones() {
        let mut build = sized(&[5, 5], None, None);
        build.options = Options { min_size: Some(6.0), max_size: Some(9.0), ..Options::default() };
        assert_eq!(marks(build.clone()), [(10.0, 2)]);
        build.groups[0].options.max_size = Some(10.0);
        assert_eq!(marks(build), [(10.0, 0)]);
    }

    #[test]
    fn a_chunk_that_the_text_would_cut_is_a_failure() {
        let build = sized(&[5, 5], None, Some(6.0));
        let (size, bits, modules) = (10.0, [0; 4], vec![0, 1]);
        let whole = Chunk { chunk: 7, group: 0, name: 0, size, bits, mark: 0, modules };
        let message = "chunk 7 is above its maximum of 6, and the text would cut it at 1";
        assert_eq!(mark_of(&TEXT, &build, &whole), Err(Outside::Broken(message.into())));
    }
}
