//! Reads the statement of a module and its clauses.

use super::{TreeModule, line_words::LineWords, read::Said};
use crate::TextError;

/// The words that begin a clause of a module.
pub const MODULE_CLAUSES: [&str; 7] =
    ["needs", "entries", "tags", "shares", "external", "excluded", "assigned"];

/// What is expected where a word begins none.
const EXPECTED: &str =
    "needs, entries, tags, shares, external, excluded or assigned, or the next statement,";

impl TreeModule {
    /// `ID SIZE`.
    pub fn read(words: &mut LineWords) -> Result<Self, TextError> {
        Ok(Self {
            line: words.line,
            id: words.word("the module's id")?,
            size: words.size()?,
            needs: Vec::new(),
            entries: None,
            tags: Vec::new(),
            shares: None,
            flags: 3,
        })
    }

    /// One clause.
    pub fn clause(&mut self, words: &mut LineWords, said: &mut Said) -> Result<(), TextError> {
        let Some(word) = words.keyword(&MODULE_CLAUSES) else {
            return words.unexpected(EXPECTED, &MODULE_CLAUSES);
        };
        if !["needs", "entries", "tags"].contains(&word) {
            said.once(&format!("`{word}` of this module"), words)?;
        }
        match word {
            "needs" => self.needs.extend(words.mentions("a module's id", &MODULE_CLAUSES)?),
            "tags" => self.tags.extend(words.mentions("a tag", &MODULE_CLAUSES)?),
            "entries" => self.reaching_entries(words)?,
            "shares" => self.shares = Some(words.number(u32::MAX.into())?),
            "external" => self.flags &= !1,
            "excluded" => self.flags &= !2,
            _ => self.flags |= 4,
        }
        Ok(())
    }

    /// The entries that reach it; a lone `-` says that none does.
    fn reaching_entries(&mut self, words: &mut LineWords) -> Result<(), TextError> {
        let entries = self.entries.get_or_insert_default();
        if words.keyword(&["-"]).is_none() {
            entries.extend(words.mentions("an entry's name, or `-` for none,", &MODULE_CLAUSES)?);
        }
        Ok(())
    }
}
