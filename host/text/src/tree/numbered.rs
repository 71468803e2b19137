//! What a host makes of a tree: numbers for modules, names, entries and tags, and answers.

use std::collections::{BTreeMap, BTreeSet};

use super::{Mention, Order, Tree, TreeModule, nearest, order, reach};
use crate::{Build, Group, Module, Quoted, Record, TextError, drawn::shuffled};

/// A build with what its numbers stand for.
#[derive(Debug, Clone, PartialEq)]
pub struct Numbered {
    pub build: Build,
    /// The names in ascending byte order, as they are numbered.
    pub names: Vec<String>,
    /// The tags in ascending byte order; the first has the lowest bit.
    pub tags: Vec<String>,
    /// For each module by its load number, where it stands among the tree's modules.
    pub places: Vec<usize>,
}

/// How many tags there can be: one bit of 64 for each.
const TAGS: usize = 64;

/// What the words of a tree lead to, by the places of its modules.
struct Resolved {
    needs: Vec<Vec<usize>>,
    /// The module of each entry.
    starts: Vec<usize>,
    tags: Vec<String>,
    names: Vec<String>,
    /// For each group, one for each module.
    answers: Vec<Vec<u32>>,
}

impl Tree {
    /// Gives everything its number. Load numbers are the places of the modules' lines, or drawn with
    /// a seed.
    ///
    /// # Errors
    ///
    /// A word names a module, an entry or a tag that isn't there, or there are more tags than bits.
    pub fn numbered(&self, seed: Option<u32>) -> Result<Numbered, TextError> {
        let resolved = self.resolved()?;
        let count = u32::try_from(self.modules.len()).unwrap_or(u32::MAX);
        let places: Vec<usize> = match seed {
            Some(seed) => shuffled(seed, count).into_iter().map(|place| place as usize).collect(),
            None => (0..self.modules.len()).collect(),
        };
        let (first, records) = chains(&resolved.needs, &places, seed);
        let mut modules = self.plain_modules(&resolved)?;
        modules.iter_mut().zip(first).for_each(|(module, first)| module.first_record = first);
        let by_load = |answers: &Vec<u32>| places.iter().map(|place| answers[*place]).collect();
        let build = Build {
            entries: self.entries.len() as u64,
            names: resolved.names.len() as u64,
            count_on_entry: self.count_on_entry,
            options: self.options.clone(),
            modules: places.iter().map(|place| modules[*place].clone()).collect(),
            records,
            groups: self.plain_groups(&resolved.tags),
            answers: resolved.answers.iter().map(by_load).collect(),
        };
        Ok(Numbered { build, names: resolved.names, tags: resolved.tags, places })
    }

    fn resolved(&self) -> Result<Resolved, TextError> {
        let ids = self.ids();
        let find = |mention: &Mention| match ids.get(mention.text.as_str()) {
            Some(place) => Ok(*place),
            None => Err(missing("module with the id", mention, ids.keys().copied())),
        };
        let needs = |module: &TreeModule| module.needs.iter().map(find).collect();
        let needs = self.modules.iter().map(needs).collect::<Result<_, _>>()?;
        let starts =
            self.entries.iter().map(|entry| find(&entry.module)).collect::<Result<_, _>>()?;
        let (names, answers) = self.answers();
        Ok(Resolved { needs, starts, tags: self.tags()?, names, answers })
    }

    /// The place of the module that each id names: the first that is normal and included, or else
    /// the first. Two that are both are the library's to refuse.
    fn ids(&self) -> BTreeMap<&str, usize> {
        let mut ids = BTreeMap::new();
        for takes_part in [true, false] {
            for (place, module) in self.modules.iter().enumerate() {
                if (module.flags & 3 == 3) == takes_part {
                    ids.entry(module.id.as_str()).or_insert(place);
                }
            }
        }
        ids
    }

    /// All tags of modules. A group that asks for another one could take nothing.
    fn tags(&self) -> Result<Vec<String>, TextError> {
        let mut tags = BTreeSet::new();
        for tag in self.modules.iter().flat_map(|module| &module.tags) {
            tags.insert(tag.text.as_str());
            if tags.len() > TAGS {
                let message =
                    format!("at most {TAGS} different tags are expected; this is one more");
                return Err(TextError { line: tag.line, message });
            }
        }
        let mut asked = self.groups.iter().flat_map(|group| &group.tags);
        match asked.find(|tag| !tags.contains(tag.text.as_str())) {
            Some(tag) => Err(missing("module with the tag", tag, tags)),
            None => Ok(tags.into_iter().map(String::from).collect()),
        }
    }

    /// The names in ascending byte order, and each group's answers.
    fn answers(&self) -> (Vec<String>, Vec<Vec<u32>>) {
        let named = |module: &TreeModule, group: usize| {
            let group = &self.groups[group];
            let matches = |id: &[u8]| group.tests.iter().any(|test| test.matches(id));
            let matched = group.tests.is_empty() || matches(module.id.as_bytes());
            matched.then(|| group.name.name(&module.id))
        };
        let of_group =
            |group: usize| self.modules.iter().map(|module| named(module, group)).collect();
        let all: Vec<Vec<Option<Option<String>>>> = (0..self.groups.len()).map(of_group).collect();
        let names: BTreeSet<&String> = all.iter().flatten().flatten().flatten().collect();
        let numbers: BTreeMap<&String, u32> = names.iter().copied().zip(2..).collect();
        let answer = |one: &Option<Option<String>>| match one {
            None => 0,
            Some(None) => 1,
            Some(Some(name)) => numbers[name],
        };
        let answers = all.iter().map(|of_group| of_group.iter().map(answer).collect()).collect();
        (names.into_iter().cloned().collect(), answers)
    }

    /// The modules by their places, without their records.
    fn plain_modules(&self, resolved: &Resolved) -> Result<Vec<Module>, TextError> {
        let takes_part: Vec<bool> = self.modules.iter().map(|one| one.flags & 3 == 3).collect();
        let reaching = reach::reaching(&resolved.needs, &takes_part, &resolved.starts);
        let orders = match self.order {
            Order::Lines => (0..).take(self.modules.len()).collect(),
            Order::Entries => order::from_entries(&resolved.needs, &resolved.starts),
        };
        let module = |(place, written): (usize, &TreeModule)| {
            let bits = match &written.entries {
                Some(entries) => self.bits(entries)?,
                None => reaching[place],
            };
            Ok(Module {
                flags: written.flags,
                size: written.size,
                order: orders[place],
                share_count: written.shares.unwrap_or(reach::count(bits)),
                tags: mask(&written.tags, &resolved.tags),
                bits,
                first_record: 0,
                id: written.id.clone().into_bytes(),
            })
        };
        self.modules.iter().enumerate().map(module).collect()
    }

    /// The bits of entries that are said by name.
    fn bits(&self, entries: &[Mention]) -> Result<[u64; 4], TextError> {
        let mut bits = [0; 4];
        for mention in entries {
            let entry = self.entries.iter().position(|entry| entry.name == mention.text);
            let names = self.entries.iter().map(|entry| entry.name.as_str());
            let entry = entry.ok_or_else(|| missing("entry with the name", mention, names))?;
            reach::set_bit(&mut bits, entry);
        }
        Ok(bits)
    }

    fn plain_groups(&self, tags: &[String]) -> Vec<Group> {
        let group = |group: &super::TreeGroup| Group {
            options: group.options.clone(),
            mask: mask(&group.tags, tags),
            priority: group.priority,
            entries_aware: group.entries_aware,
            threshold: group.threshold,
        };
        self.groups.iter().map(group).collect()
    }
}

/// A word that names nothing.
fn missing<'a>(
    what: &str,
    mention: &Mention,
    candidates: impl IntoIterator<Item = &'a str>,
) -> TextError {
    let hint = nearest::hint(&mention.text, candidates);
    let message = format!("there is no {what} `{}`{hint}", Quoted(&mention.text));
    TextError { line: mention.line, message }
}

/// The bits of tags.
fn mask(tags: &[Mention], all: &[String]) -> u64 {
    let bit = |tag: &Mention| all.binary_search(&tag.text).map_or(0, |place| 1 << place);
    tags.iter().map(bit).fold(0, |mask, bit: u64| mask | bit)
}

/// The first record of each module by its place, and the records. With a seed each chain is laid in
/// an order of its own.
fn chains(needs: &[Vec<usize>], places: &[usize], seed: Option<u32>) -> (Vec<u32>, Vec<Record>) {
    let mut loads = vec![0; places.len()];
    places.iter().zip(0..).for_each(|(place, load)| loads[*place] = load);
    let (mut first, mut records) = (vec![0; needs.len()], Vec::new());
    for place in places {
        let mut modules: Vec<u32> = needs[*place].iter().map(|need| loads[*need]).collect();
        if let Some(seed) = seed {
            modules.sort_by_key(|module| crate::drawn::word(seed, *module));
        }
        // Laid from the end, so that the chain has the order of the words.
        for module in modules.into_iter().rev() {
            records.push(Record { module, next: first[*place] });
            first[*place] = u32::try_from(records.len()).unwrap_or(u32::MAX);
        }
    }
    (first, records)
}
