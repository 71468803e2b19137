//! The name of a chunk, put to one copy of the crate's text.

use oxc_index::Idx;
use rolldown_common::{EntryPoint, ModuleIdx};
use rolldown_utils::{indexmap::FxIndexMap, xxhash::handed_out};
use text::{Build, Group, Module, Name};

use crate::{CrateText, Outside, World, groups::with_options, leaves::id_text, probe};

/// The bits that a chunk's set has room for, so that also those at or above the count of entries can
/// be asked. In a build of the crate's own a set has room for its entries.
const BITS: u64 = 256;

/// The name of a chunk that one module becomes. The hash of its full name is the one handed in.
pub fn name(text: &CrateText, name: &Name) -> Result<Vec<u8>, Outside> {
    if name.entries_aware && (0..name.entry_names.len()).any(|entry| is_bare(name, entry)) {
        return Err(Outside::EmptyEntryName);
    }
    let world = world(name)?;
    let group_name = id_text(&name.group_names[name.number as usize])?;
    let named = handed_out(id_text(&name.hash)?, || (text.name)(&world, group_name));
    // A probed copy reports the chunk's size, which no one asks for here.
    probe::take();
    Ok(named.as_bytes().to_vec())
}

/// Whether an entry of the chunk has an empty name.
fn is_bare(name: &Name, entry: usize) -> bool {
    name.bits[entry / 64] >> (entry % 64) & 1 == 1 && name.entry_names[entry].is_empty()
}

/// One module with the chunk's bits, one group, and entries with the names that are handed in.
fn world(name: &Name) -> Result<World, Outside> {
    let module = Module { flags: 3, bits: name.bits, ..Module::default() };
    let build = Build { entries: BITS, modules: vec![module], ..Build::default() };
    let group = Group { entries_aware: Some(name.entries_aware), ..Group::default() };
    let mut world = World::new(&build, vec![with_options(&group)])?;
    world.link_output.entries = entries(&name.entry_names)?;
    Ok(world)
}

/// Entries with these names.
pub fn entries(names: &[Vec<u8>]) -> Result<FxIndexMap<ModuleIdx, Vec<EntryPoint>>, Outside> {
    let idx = ModuleIdx::from_usize(0);
    let entry = |name: &Vec<u8>| Ok(EntryPoint { name: Some(id_text(name)?.into()), idx });
    let mut entries = FxIndexMap::default();
    entries.push(idx, names.iter().map(entry).collect::<Result<_, Outside>>()?);
    Ok(entries)
}

#[cfg(test)]
mod tests {
    use text::{Damage, Name};

    use super::{name, world};
    use crate::{Outside, copies::unchanged::TEXT};

    /// The group "a" and one entry without a name, which the chunk has.
    fn bare() -> Name {
        Name {
            group_names: vec![b"a".to_vec()],
            entry_names: vec![Vec::new()],
            number: 0,
            entries_aware: true,
            bits: [1, 0, 0, 0],
            hash: b"01234567".to_vec(),
            damage: Damage::default(),
        }
    }

    #[test]
    fn the_crate_shows_an_empty_name_so_it_is_not_asked() {
        let question = bare();
        let world = world(&question).expect("names are texts");
        assert_eq!((TEXT.name)(&world, "a").as_str(), "a~");
        assert_eq!(name(&TEXT, &question), Err(Outside::EmptyEntryName));
    }

    #[test]
    fn an_empty_name_that_is_not_shown_is_asked() {
        let unset = Name { bits: [2, 0, 0, 0], ..bare() };
        assert_eq!(name(&TEXT, &unset), Ok(b"a".to_vec()));
        let other = Name { entries_aware: false, ..bare() };
        assert_eq!(name(&TEXT, &other), Ok(b"a".to_vec()));
    }

    #[test]
    fn the_hash_is_the_one_that_is_handed_in() {
        let long = Name { group_names: vec![vec![b'g'; 101]], bits: [0; 4], ..bare() };
        let expected = format!("{}~01234567", "g".repeat(91)).into_bytes();
        assert_eq!(name(&TEXT, &long), Ok(expected));
    }
}
