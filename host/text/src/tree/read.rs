//! Reads a tree line by line: a statement, then the clauses that belong to it.

use std::collections::BTreeMap;

use super::{
    Order, Tree, TreeEntry, TreeModule, line_words::LineWords, read_group::OPTIONS,
    read_module::MODULE_CLAUSES,
};
use crate::{Quoted, TextError};

/// The words that begin a statement.
const STATEMENTS: [&str; 7] =
    ["tree", "order", "count_on_entry", "entry", "module", "options", "group"];

/// What is expected where a line begins with none of them.
const EXPECTED: &str = "a line with tree, order, count_on_entry, entry, module, options or group";

/// What the clauses of the next lines belong to.
#[derive(Clone, Copy, PartialEq, Eq)]
enum Owner {
    Nothing,
    Options,
    Module,
    Group,
}

/// A tree as far as it has been read.
struct Reader {
    tree: Tree,
    owner: Owner,
    /// Where each statement that can't be repeated, and each clause of the owner, was read.
    said: Said,
    said_of_owner: Said,
}

/// The line of each thing that was said.
#[derive(Default)]
pub struct Said(BTreeMap<String, usize>);

impl Said {
    /// Notes a thing; one that was said before is an error.
    pub fn once(&mut self, what: &str, words: &LineWords) -> Result<(), TextError> {
        match self.0.insert(what.to_string(), words.line) {
            None => Ok(()),
            Some(line) => {
                words.error(format!("{} is said again; line {line} has it", Quoted(what)))
            }
        }
    }
}

/// Reads a tree.
///
/// # Errors
///
/// The first line that can't be read, and what was expected there.
pub fn read_tree(text: &str) -> Result<Tree, TextError> {
    let (said, said_of_owner) = Default::default();
    let mut reader = Reader { tree: Tree::default(), owner: Owner::Nothing, said, said_of_owner };
    // Some editors put a byte order mark before the text.
    let text = text.strip_prefix('\u{feff}').unwrap_or(text);
    for (number, line) in text.lines().enumerate() {
        reader.line(&mut LineWords::new(number + 1, line)?)?;
    }
    Ok(reader.tree)
}

impl Reader {
    /// One line: a statement with clauses, or clauses of the statement above.
    fn line(&mut self, words: &mut LineWords) -> Result<(), TextError> {
        if let Some(statement) = words.keyword(&STATEMENTS) {
            self.owner = self.statement(statement, words)?;
            self.said_of_owner = Said::default();
        }
        while !words.is_at_end() {
            self.clause(words)?;
        }
        Ok(())
    }

    /// A statement without its clauses. Answers what its clauses belong to.
    fn statement(&mut self, word: &str, words: &mut LineWords) -> Result<Owner, TextError> {
        match word {
            "entry" => return self.entry(words),
            "module" => {
                self.tree.modules.push(TreeModule::read(words)?);
                return Ok(Owner::Module);
            }
            "group" => {
                let label = words.word("the group's label")?;
                self.said.once(&format!("the group `{label}`"), words)?;
                self.tree.groups.push(super::TreeGroup::new(words.line, label));
                return Ok(Owner::Group);
            }
            _ => self.said.once(&format!("`{word}`"), words)?,
        }
        match word {
            "tree" => self.tree.title = Some(title(words)?),
            "order" => self.tree.order = order(words)?,
            "count_on_entry" => self.tree.count_on_entry = words.number(u64::MAX)?,
            _ => return Ok(Owner::Options),
        }
        Ok(Owner::Nothing)
    }

    fn entry(&mut self, words: &mut LineWords) -> Result<Owner, TextError> {
        let name = words.word("the entry's name")?;
        self.said.once(&format!("the entry `{name}`"), words)?;
        let module = words.mention("the id of the entry's module")?;
        self.tree.entries.push(TreeEntry { name, module });
        Ok(Owner::Nothing)
    }

    /// One clause of what the line, or a line above, began.
    fn clause(&mut self, words: &mut LineWords) -> Result<(), TextError> {
        let Tree { modules, groups, options, .. } = &mut self.tree;
        let said = &mut self.said_of_owner;
        match (self.owner, modules.last_mut(), groups.last_mut()) {
            (Owner::Module, Some(module), _) => module.clause(words, said),
            (Owner::Group, _, Some(group)) => group.clause(words, said),
            (Owner::Options, ..) => match words.keyword(&OPTIONS) {
                Some(word) => options.clause(word, words, said),
                None => {
                    words.unexpected("an option of the build, or the next statement,", &OPTIONS)
                }
            },
            _ => match words.keyword(&MODULE_CLAUSES).or_else(|| words.keyword(&OPTIONS)) {
                Some(word) => words.error(format!(
                    "`{word}` is expected below a module, a group or options, not here"
                )),
                None => words.unexpected(EXPECTED, &STATEMENTS),
            },
        }
    }
}

/// The title, which is the tag of a call.
fn title(words: &mut LineWords) -> Result<String, TextError> {
    let is_tag = |word: &str| {
        let good = !word.is_empty() && !word.contains(char::is_whitespace);
        good.then(|| word.to_string())
    };
    words.value("a title of one word", is_tag)
}

fn order(words: &mut LineWords) -> Result<Order, TextError> {
    words.value("`lines` or `entries`", |word| match word {
        "lines" => Some(Order::Lines),
        "entries" => Some(Order::Entries),
        _ => None,
    })
}
