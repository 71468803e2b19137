//! The chunk list of a whole build, by document 01's steps 1 to 5, with document 02's last tie in
//! step 3 and its marks.

mod marks;
mod subgroups;

use std::collections::{BTreeMap, BTreeSet, VecDeque};

use text::{Chunk, ChunkList, Filter, tables::BuildTables};

use subgroups::of_one_set;

use crate::{
    capture::{capture, chain, eligible},
    cut::cut,
    filter, id,
    merge::union,
    row,
    rules::{Level, ReadingFault, Rules, SOUND, Setting, Tie, Use},
    story::{Fate, Planned, Story, Turn},
    trace::{Event, Trace},
};

/// A set of modules by number.
type Modules = BTreeSet<usize>;

/// An item of the work list.
#[derive(Debug, Clone)]
struct Item {
    group: usize,
    name: u32,
    /// The bits of its subgroup, if it is entries-aware.
    bits: Option<[u64; 4]>,
    modules: Modules,
    /// What it held before modules left it; of a piece, what it was cut from.
    before: Modules,
    /// The module that its place among the subgroups of its set goes by; it may have left since.
    first: Option<usize>,
    /// Its number in the work list at the start, which its pieces keep.
    origin: usize,
    /// Whether it is a piece of a cut.
    piece: bool,
}

/// A build at work.
struct Build<'a> {
    tables: &'a BuildTables,
    rules: Rules,
    eligible: Vec<bool>,
    chains: Vec<Vec<usize>>,
    trace: Trace,
    /// Kept only where it is asked for: it holds every item's modules.
    story: Option<Story>,
}

/// The chunk list of accepted tables, and what happened on the way.
pub fn chunk_list(tables: &BuildTables) -> (ChunkList, Trace) {
    chunk_list_by(SOUND, tables)
}

/// The same by other rules.
pub fn chunk_list_by(rules: Rules, tables: &BuildTables) -> (ChunkList, Trace) {
    let mut build = Build::new(rules, tables);
    (build.run(), build.trace)
}

/// The chunk list of accepted tables, and what came of each item.
pub fn chunk_list_told(tables: &BuildTables) -> (ChunkList, Story) {
    let mut build = Build { story: Some(Story::default()), ..Build::new(SOUND, tables) };
    (build.run(), build.story.unwrap_or_default())
}

impl<'a> Build<'a> {
    fn new(rules: Rules, tables: &'a BuildTables) -> Self {
        let modules = 0..tables.flags.len();
        let chain_of = |m: usize| chain(tables.first[m], &tables.dep_module, &tables.dep_next);
        Build {
            tables,
            rules,
            eligible: tables.flags.iter().map(|flags| eligible(*flags)).collect(),
            chains: modules.map(chain_of).collect(),
            trace: Trace::default(),
            story: None,
        }
    }
}

impl Build<'_> {
    /// Steps 1 to 5.
    fn run(&mut self) -> ChunkList {
        let sets = self.sets();
        let items = self.work_list(sets);
        let chunks = self.convert(items);
        self.written(chunks)
    }

    /// Step 1: the set of each (group, name).
    fn sets(&mut self) -> BTreeMap<(usize, u32), Modules> {
        let (n, g) = (self.eligible.len(), self.tables.groups.len());
        let by_module = self.rules.has(ReadingFault::AnswersByModule);
        let mut sets: BTreeMap<(usize, u32), Modules> = BTreeMap::new();
        for group in 0..g {
            for module in 0..n {
                let place = if by_module { module * g + group } else { group * n + module };
                let answer = self.tables.answers[place];
                if !self.eligible[module] || answer == 0 {
                    continue;
                }
                if !passes(self.tables, group, module, self.rules) {
                    self.trace.events.push(Event::Filtered);
                    self.story.iter_mut().for_each(|story| story.filtered.push((group, module)));
                    continue;
                }
                if answer >= 2 {
                    let captured = self.captured(group, module);
                    sets.entry((group, answer - 2)).or_default().extend(captured);
                }
            }
        }
        sets
    }

    /// The capture of a matched module.
    fn captured(&mut self, group: usize, module: usize) -> Modules {
        let given =
            self.rules.yes(Setting::Recursive, &self.tables.groups[group], &self.tables.options);
        let recursive = given.unwrap_or(self.rules.default(Setting::Recursive, true, false));
        let marks = capture(&self.eligible, &self.chains, module, recursive);
        let captured: Modules = (0..marks.len()).filter(|m| marks[*m]).collect();
        if captured.len() > 1 {
            self.trace.events.push(Event::Captured);
        }
        captured
    }

    /// Steps 2 and 3: the items in the order in which they are taken.
    fn work_list(&mut self, sets: BTreeMap<(usize, u32), Modules>) -> Vec<Item> {
        let mut items = Vec::new();
        for ((group, name), modules) in sets {
            let first = self.ties().first(&modules);
            let (before, origin, piece) = (Modules::new(), 0, false);
            let item = Item { group, name, bits: None, modules, before, first, origin, piece };
            if self.is_entries_aware(group) {
                items.extend(self.subgroups(item));
            } else {
                items.push(item);
            }
        }
        // The sets come by group and name, and subgroups in their order, which this sort keeps.
        items.sort_by_key(|item| std::cmp::Reverse(self.priority(item.group)));
        for (origin, item) in items.iter_mut().enumerate() {
            item.origin = origin;
            item.before = item.modules.clone();
        }
        if let Some(story) = &mut self.story {
            story.items = items.iter().map(planned).collect();
        }
        items
    }

    /// Step 4: takes the items off, one after another.
    fn convert(&mut self, items: Vec<Item>) -> Vec<Chunk> {
        let mut items = VecDeque::from(items);
        let mut chunks = Vec::new();
        while let Some(item) = self.next(&mut items) {
            if item.modules.is_empty() {
                self.trace.events.push(Event::Emptied);
                self.tell(&item, Fate::Emptied);
            } else if self.is_dropped(&item) {
                self.trace.events.push(Event::Dropped);
                self.tell(&item, Fate::Dropped);
            } else if let Some((left, right)) = self.pieces(&item) {
                let [left_size, right_size] = [&left, &right].map(|one| self.total(&one.modules));
                self.tell(&item, Fate::Cut { left: left_size, right: right_size });
                self.put_back(&mut items, left, right);
            } else {
                for other in &mut items {
                    self.leave(other, &item.modules);
                }
                let chunk = self.chunk(&item, chunks.len());
                self.tell(&item, Fate::Chunk(chunk.chunk));
                chunks.push(chunk);
            }
        }
        chunks
    }

    /// The item whose turn it is.
    fn next(&mut self, items: &mut VecDeque<Item>) -> Option<Item> {
        let left_at_turn = self.rules.tie() == Some(Tie::LeftAtTurn);
        if left_at_turn && items.front().is_some_and(|item| !item.piece) {
            self.by_what_is_left(items);
        }
        let item = items.pop_front()?;
        let left = item.first.is_some_and(|module| !item.modules.contains(&module));
        if left && item.bits.is_some() && !item.piece && !item.modules.is_empty() {
            self.trace.events.push(Event::FirstLeft);
        }
        Some(item)
    }

    /// The pieces of a cut stand where their item stood, the right one first.
    fn put_back(&mut self, items: &mut VecDeque<Item>, left: Item, right: Item) {
        items.push_front(left);
        items.push_front(right);
        if self.rules.has(ReadingFault::PiecesById) {
            self.by_what_is_left(items);
        }
        if self.rules.has(ReadingFault::PiecesLast) {
            of_one_set(items).rotate_left(2);
        }
    }

    /// Notes what came of an item, where the story is kept.
    fn tell(&mut self, item: &Item, fate: Fate) {
        let size = self.total(&item.modules);
        if let Some(story) = &mut self.story {
            let (origin, modules, piece) = (item.origin, item.modules.len(), item.piece);
            story.turns.push(Turn { origin, size, modules, piece, fate });
        }
    }

    /// Whether an item is strictly below its min_size.
    fn is_dropped(&mut self, item: &Item) -> bool {
        let (min_size, size) = (self.min_size(item.group), self.total(&item.modules) as f64);
        if size == min_size {
            self.trace.events.push(Event::AtMinSize);
            return self.rules.has(ReadingFault::AtMinSizeDropped);
        }
        let oversized = self.max_size(item.group).is_some_and(|max_size| size > max_size);
        size < min_size && !(self.rules.has(ReadingFault::CutBeforeDropped) && oversized)
    }

    /// A limit in force: a group's option overrides the global one.
    fn limit(&self, group: usize, setting: Setting) -> Option<f64> {
        self.limit_by(self.rules, group, setting)
    }

    fn limit_by(&self, rules: Rules, group: usize, setting: Setting) -> Option<f64> {
        rules.double(setting, &self.tables.groups[group], &self.tables.options)
    }

    fn min_size(&self, group: usize) -> f64 {
        self.min_size_by(self.rules, group)
    }

    fn min_size_by(&self, rules: Rules, group: usize) -> f64 {
        let absent = rules.default(Setting::MinSize, 0.0, 1.0);
        self.limit_by(rules, group, Setting::MinSize).unwrap_or(absent)
    }

    fn max_size(&self, group: usize) -> Option<f64> {
        self.max_size_by(self.rules, group)
    }

    fn max_size_by(&self, rules: Rules, group: usize) -> Option<f64> {
        let absent = rules.default(Setting::MaxSize, None, Some(0.0));
        self.limit_by(rules, group, Setting::MaxSize).or(absent)
    }

    fn is_entries_aware(&self, group: usize) -> bool {
        let (group, global) = (&self.tables.groups[group], &self.tables.options);
        let absent = self.rules.default(Setting::EntriesAware, false, true);
        self.rules.yes(Setting::EntriesAware, group, global).unwrap_or(absent)
    }

    fn priority(&self, group: usize) -> u32 {
        let (group, global) = (&self.tables.groups[group], &self.tables.options);
        let absent = self.rules.default(Setting::Priority, 0, 1);
        self.rules.count(Setting::Priority, group, global).unwrap_or(absent)
    }

    /// The left and the right piece of an item that is strictly above its max_size, if it can be
    /// cut in id order.
    fn pieces(&mut self, item: &Item) -> Option<(Item, Item)> {
        let max_size = self.max_size(item.group)?;
        let min_size = self.min_size(item.group);
        let size = self.total(&item.modules) as f64;
        let is_cut = size == max_size && self.rules.has(ReadingFault::AtMaxSizeCut);
        if size <= max_size && !is_cut {
            self.trace.events.extend((size == max_size).then_some(Event::AtMaxSize));
            return None;
        }
        let id_of = |module: &usize| id(&self.tables.ids, &self.tables.offsets, *module);
        let modules = self.in_id_order(&item.modules);
        let ids: Vec<&[u8]> = modules.iter().map(id_of).collect();
        let sizes: Vec<u64> = modules.iter().map(|module| self.tables.sizes[*module]).collect();
        let Some((index, _, _)) = cut(&ids, &sizes, min_size, max_size) else {
            self.trace.events.push(Event::Uncuttable);
            return None;
        };
        self.trace.events.push(if item.piece { Event::CutAgain } else { Event::Cut });
        let piece = |part: &[usize]| Item {
            modules: part.iter().copied().collect(),
            before: item.modules.clone(),
            piece: true,
            ..item.clone()
        };
        Some((piece(&modules[..index]), piece(&modules[index..])))
    }

    /// The modules of a chunk leave another item.
    fn leave(&mut self, other: &mut Item, taken: &Modules) {
        let before = other.modules.len();
        other.modules.retain(|module| !taken.contains(module));
        if !other.modules.is_empty() && other.modules.len() < before {
            self.trace.events.push(Event::Narrowed);
        }
    }

    /// Step 5: the chunk of an item, with its entry bits.
    fn chunk(&mut self, item: &Item, count: usize) -> Chunk {
        let own = item.modules.iter().map(|module| row(&self.tables.bits, *module));
        let own = own.map(|bits| self.rules.words(Use::Union, bits)).fold([0; 4], union);
        let bits = item.bits.unwrap_or(own);
        if bits != own {
            self.trace.events.push(Event::WiderBits);
        }
        self.trace.origin.push(item.origin);
        let mark = self.mark(item);
        Chunk {
            chunk: number(self.tables.count_on_entry as usize + count),
            group: number(item.group),
            name: item.name,
            size: self.total(&item.modules) as f64,
            bits,
            mark,
            modules: self.in_execution_order(&item.modules).into_iter().map(number).collect(),
        }
    }

    /// The areas that are written: per module, its chunk plus 1 or 0.
    fn written(&self, chunks: Vec<Chunk>) -> ChunkList {
        let mut chunk_of = vec![0; self.eligible.len()];
        for chunk in &chunks {
            for module in &chunk.modules {
                chunk_of[*module as usize] = chunk.chunk + 1;
            }
        }
        ChunkList { chunks, chunk_of }
    }

    /// The sum of the sizes of modules.
    fn total(&self, modules: &Modules) -> u64 {
        modules.iter().map(|module| self.tables.sizes[*module]).sum()
    }

    /// Modules in byte order of their ids.
    fn in_id_order(&self, modules: &Modules) -> Vec<usize> {
        let mut modules: Vec<usize> = modules.iter().copied().collect();
        modules.sort_by_key(|module| id(&self.tables.ids, &self.tables.offsets, *module));
        modules
    }

    /// Modules in execution order.
    fn in_execution_order(&self, modules: &Modules) -> Vec<usize> {
        let mut modules: Vec<usize> = modules.iter().copied().collect();
        modules.sort_by_key(|module| self.tables.orders[*module]);
        modules
    }
}

/// An item as it stands in the story.
fn planned(item: &Item) -> Planned {
    let modules = item.modules.iter().copied().collect();
    Planned { group: item.group, name: item.name, modules, first: item.first }
}

/// The filter, with the limits in force.
pub fn passes(tables: &BuildTables, group: usize, module: usize, rules: Rules) -> bool {
    let (own, global) = (&tables.groups[group], &tables.options);
    let (min, max) = (Setting::MinModuleSize, Setting::MaxModuleSize);
    let shares = Setting::MinShareCount;
    let masked = !rules.has(ReadingFault::Ignored(Level::Group, Setting::Mask));
    let filter = Filter {
        mask: if masked { own.mask } else { 0 },
        min_module_size: rules.double(min, own, global).or(rules.default(min, None, Some(1.0))),
        max_module_size: rules.double(max, own, global).or(rules.default(max, None, Some(0.0))),
        min_share_count: rules.count(shares, own, global).or(rules.default(shares, None, Some(1))),
        tags: tables.tags[module],
        size: tables.sizes[module],
        share_count: tables.shares[module],
    };
    filter::passes(&filter, rules)
}

/// A number that fits.
fn number(number: usize) -> u32 {
    u32::try_from(number).unwrap_or(u32::MAX)
}
