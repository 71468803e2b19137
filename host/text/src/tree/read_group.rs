//! Reads the clauses of a group, and the options that it shares with the build.

use super::{NameRule, Pattern, TreeGroup, line_words::LineWords, read::Said};
use crate::{Options, TextError};

/// The options of the build as a whole; a group has them too.
pub const OPTIONS: [&str; 6] = [
    "min_size",
    "max_size",
    "min_module_size",
    "max_module_size",
    "min_share_count",
    "include_dependencies_recursively",
];

/// The words that begin a clause of a group alone.
const GROUP_CLAUSES: [&str; 6] =
    ["test", "name", "tags", "priority", "entries_aware", "entries_aware_merge_threshold"];

/// What is expected where a word begins none.
const EXPECTED: &str = "test, name or an option of a group, or the next statement,";

impl Options {
    /// One option, of which the word has been read.
    pub(super) fn clause(
        &mut self,
        word: &str,
        words: &mut LineWords,
        said: &mut Said,
    ) -> Result<(), TextError> {
        said.once(&format!("`{word}`"), words)?;
        match word {
            "min_size" => self.min_size = Some(words.limit()?),
            "max_size" => self.max_size = Some(words.limit()?),
            "min_module_size" => self.min_module_size = Some(words.limit()?),
            "max_module_size" => self.max_module_size = Some(words.limit()?),
            "min_share_count" => self.min_share_count = Some(words.number(u32::MAX.into())?),
            _ => self.recursive = Some(words.yes()?),
        }
        Ok(())
    }
}

impl TreeGroup {
    /// A group without clauses: it matches all modules, and its label is their name.
    pub fn new(line: usize, label: String) -> Self {
        Self {
            line,
            name: NameRule::fixed(&label),
            label,
            tests: Vec::new(),
            tags: Vec::new(),
            options: Options::default(),
            priority: None,
            entries_aware: None,
            threshold: None,
        }
    }

    /// One clause.
    pub fn clause(&mut self, words: &mut LineWords, said: &mut Said) -> Result<(), TextError> {
        if let Some(word) = words.keyword(&OPTIONS) {
            return self.options.clause(word, words, said);
        }
        let Some(word) = words.keyword(&GROUP_CLAUSES) else {
            return words.unexpected(EXPECTED, &all_clauses());
        };
        if !["test", "tags"].contains(&word) {
            said.once(&format!("`{word}`"), words)?;
        }
        match word {
            "test" => self.tests.push(Pattern::new(&words.word("a pattern over ids")?)),
            "tags" => self.tags.extend(words.mentions("a tag", &all_clauses())?),
            "name" => self.name = name(words)?,
            "priority" => self.priority = Some(words.number(u32::MAX.into())?),
            "entries_aware" => self.entries_aware = Some(words.yes()?),
            _ => self.threshold = Some(words.limit()?),
        }
        Ok(())
    }
}

/// All words that begin a clause of a group.
fn all_clauses() -> Vec<&'static str> {
    [&OPTIONS[..], &GROUP_CLAUSES].concat()
}

fn name(words: &mut LineWords) -> Result<NameRule, TextError> {
    words.value("a name, with braces only as in {1} or {-1},", NameRule::new)
}
