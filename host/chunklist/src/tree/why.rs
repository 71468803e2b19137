//! Why a chunk is what it is, by the host's own reading of the papers. Nothing of it is proved.

use std::collections::{BTreeMap, BTreeSet};

use reading::story::{Fate, Planned, Turn};
use text::ChunkList;

use super::{HostReading, Shown, ShownChunk, ShownModule, TreeBuild, shown::counted};

/// What the host reads of a build, laid out by chunks.
pub struct Why<'a> {
    build: &'a TreeBuild,
    list: &'a ChunkList,
    reading: &'a HostReading,
    /// For each chunk, the place of its turn.
    turns: BTreeMap<u32, usize>,
    /// Matched modules that failed a group's filter, as group and module.
    filtered: BTreeSet<(usize, usize)>,
}

/// How many items a list names before it only counts them.
const NAMED: usize = 20;

impl<'a> Why<'a> {
    pub fn new(build: &'a TreeBuild, list: &'a ChunkList, reading: &'a HostReading) -> Self {
        let made = |(place, turn): (usize, &Turn)| match turn.fate {
            Fate::Chunk(number) => Some((number, place)),
            _ => None,
        };
        let turns = reading.story.turns.iter().enumerate().filter_map(made).collect();
        let filtered = reading.story.filtered.iter().copied().collect();
        Self { build, list, reading, turns, filtered }
    }

    /// How a chunk's item came to be what it is.
    pub fn of_chunk(&self, chunk: &ShownChunk) -> Vec<String> {
        let Some(place) = self.turns.get(&chunk.number) else {
            return vec!["The host's reading has no such chunk.".into()];
        };
        let turn = &self.reading.story.turns[*place];
        let item = &self.reading.story.items[turn.origin];
        let mut lines = vec![format!(
            "It was item {} of the work list, with {} of {} bytes at the start.",
            turn.origin + 1,
            counted(item.modules.len(), "module"),
            self.size(item)
        )];
        lines.extend(self.gone_before(item, chunk.number));
        let cuts =
            self.reading.story.turns[..*place].iter().filter(|one| one.origin == turn.origin);
        lines.extend(cuts.filter_map(cut));
        lines.extend(self.entries_aware(chunk, turn));
        lines
    }

    /// What was dropped or emptied since the chunk before.
    pub fn before_chunk(&self, chunk: &ShownChunk) -> Vec<String> {
        let Some(end) = self.turns.get(&chunk.number) else { return Vec::new() };
        let earlier = self.turns.values().filter(|place| *place < end);
        let start = earlier.max().map_or(0, |place| place + 1);
        self.passed_over(start, *end)
    }

    /// What was dropped or emptied after the last chunk.
    pub fn after_last(&self) -> Vec<String> {
        let start = self.turns.values().max().map_or(0, |place| place + 1);
        self.passed_over(start, self.reading.story.turns.len())
    }

    /// Whether a module was matched by the group itself, or came along.
    pub fn of_module(&self, chunk: &ShownChunk, module: &ShownModule) -> &'static str {
        let name = self.list.chunks.iter().find(|one| one.chunk == chunk.number);
        let answer = self.build.numbered.build.answers[chunk.group][module.load];
        let named = name.is_some_and(|one| answer == one.name + 2);
        let filtered = self.filtered.contains(&(chunk.group, module.load));
        if named && !filtered { "matched" } else { "a dependency of a matched one" }
    }

    /// Why a module is in no new chunk.
    pub fn of_left(&self, module: &ShownModule) -> String {
        if !module.states.is_empty() {
            return format!("{}, so it takes no part", module.states.join(" and "));
        }
        let items = self.reading.story.items.iter();
        let dropped = items.filter(|item| item.modules.binary_search(&module.load).is_ok());
        let dropped: Vec<String> = dropped.map(|item| self.title(item)).collect();
        let groups = 0..self.build.tree.groups.len();
        let filtered = groups.filter(|group| self.filtered.contains(&(*group, module.load)));
        let filtered: Vec<String> = filtered.map(|group| self.label(group).to_string()).collect();
        match (dropped.is_empty(), filtered.is_empty()) {
            (false, _) => format!("dropped with {}", shortened(dropped).join(", ")),
            (true, false) => format!("filtered out by {}", shortened(filtered).join(", ")),
            (true, true) => "no group names it".into(),
        }
    }

    /// Modules of an item that had gone to earlier chunks, counted by chunk.
    fn gone_before(&self, item: &Planned, number: u32) -> Vec<String> {
        let mut gone: BTreeMap<u32, usize> = BTreeMap::new();
        for load in &item.modules {
            let chunk = self.list.chunk_of[*load];
            if chunk > 0 && chunk <= number {
                *gone.entry(chunk - 1).or_default() += 1;
            }
        }
        let origin =
            |chunk: u32| self.turns.get(&chunk).map(|at| self.reading.story.turns[*at].origin);
        let apart = gone.into_iter().filter(|(chunk, _)| origin(*chunk) != origin(number));
        let line =
            |(chunk, count)| format!("{} had gone to chunk {chunk}.", counted(count, "module"));
        apart.map(line).collect()
    }

    /// What comes of its group's being entries-aware.
    fn entries_aware(&self, chunk: &ShownChunk, turn: &Turn) -> Vec<String> {
        if self.build.tree.groups[chunk.group].entries_aware != Some(true) {
            return Vec::new();
        }
        let entries = "Its entries are those of its subgroup before anything left it.";
        [entries.into()].into_iter().chain(self.place(turn)).collect()
    }

    /// What the place of an entries-aware item goes by.
    fn place(&self, turn: &Turn) -> Option<String> {
        let first = self.reading.story.items[turn.origin].first?;
        let id = String::from_utf8_lossy(&self.build.numbered.build.modules[first].id);
        Some(format!(
            "Its place among the subgroups of its name is by their smallest ids at the start; its \
             own is {id}."
        ))
    }

    /// The items that came to nothing from one turn to another.
    fn passed_over(&self, start: usize, end: usize) -> Vec<String> {
        let turns = self.reading.story.turns[start..end].iter();
        shortened(turns.filter_map(|turn| self.came_to_nothing(turn)).collect())
    }

    fn came_to_nothing(&self, turn: &Turn) -> Option<String> {
        let item = &self.reading.story.items[turn.origin];
        let title = self.title(item);
        match turn.fate {
            Fate::Emptied => Some(format!("{title} was empty: all its modules had left.")),
            Fate::Dropped => {
                let group = &self.build.tree.groups[item.group].options;
                let min_size = group.min_size.or(self.build.tree.options.min_size).unwrap_or(0.0);
                Some(format!("{title} was dropped: {} bytes, min_size {min_size}.", turn.size))
            }
            Fate::Cut { .. } | Fate::Chunk(_) => None,
        }
    }

    fn label(&self, group: usize) -> &str {
        &self.build.tree.groups[group].label
    }

    /// The group and the name of an item.
    fn title(&self, item: &Planned) -> String {
        format!("{} / {}", self.label(item.group), self.build.numbered.names[item.name as usize])
    }

    fn size(&self, item: &Planned) -> u64 {
        item.modules.iter().map(|load| self.build.numbered.build.modules[*load].size).sum()
    }
}

/// The first of these, and how many more there are.
fn shortened(mut lines: Vec<String>) -> Vec<String> {
    let more = lines.len().saturating_sub(NAMED);
    lines.truncate(NAMED);
    lines.extend((more > 0).then(|| format!("and {more} more")));
    lines
}

/// A turn that was a cut.
fn cut(turn: &Turn) -> Option<String> {
    let Fate::Cut { left, right } = turn.fate else { return None };
    let what = if turn.piece { "A piece" } else { "It" };
    Some(format!("{what}, of {} bytes, was cut into {left} and {right}, in id order.", turn.size))
}

/// Whether the host's reading agrees with the library, in words.
pub fn verdict(reading: &HostReading, shown: &Shown) -> String {
    if reading.agrees {
        let chunks = counted(shown.chunks.len(), "chunk");
        return format!("The host's own reading comes to the same {chunks}.");
    }
    "THE HOST'S OWN READING COMES TO ANOTHER LIST. The list shown is the library's, which is \
     proved; what is said of dropped, emptied and cut items may be wrong."
        .into()
}

#[cfg(test)]
mod tests {
    use super::{NAMED, shortened};

    #[test]
    fn a_long_list_is_counted() {
        let lines = |count: usize| (0..count).map(|line| line.to_string()).collect::<Vec<_>>();
        assert_eq!(shortened(lines(NAMED)), lines(NAMED));
        let long = shortened(lines(NAMED + 5));
        assert_eq!((long.len(), long[NAMED].as_str()), (NAMED + 1, "and 5 more"));
    }
}
