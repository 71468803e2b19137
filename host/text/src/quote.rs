//! How a message shows what it was handed.

use std::fmt::{Display, Formatter, Result, Write};

/// How many characters of a word a message shows.
const SHOWN: usize = 60;

/// A word as a message shows it: without characters that a terminal would obey, and not longer
/// than a line. What is left out is counted.
///
/// ```
/// use text::Quoted;
///
/// assert_eq!(Quoted("ui/a").to_string(), "ui/a");
/// assert_eq!(Quoted("\u{1b}[2J").to_string(), "\\u{1b}[2J");
/// let long = "x".repeat(1_000);
/// assert_eq!(Quoted(&long).to_string(), format!("{}... (1000 bytes)", &long[..60]));
/// ```
pub struct Quoted<'a>(pub &'a str);

impl Display for Quoted<'_> {
    fn fmt(&self, f: &mut Formatter<'_>) -> Result {
        let mut rest = self.0.chars();
        rest.by_ref().take(SHOWN).try_for_each(|character| one(f, character))?;
        match rest.next() {
            None => Ok(()),
            Some(_) => write!(f, "... ({} bytes)", self.0.len()),
        }
    }
}

/// One character, escaped unless it can be printed.
fn one(f: &mut Formatter<'_>, character: char) -> Result {
    match character {
        '\'' | '"' => f.write_char(character),
        _ => write!(f, "{}", character.escape_debug()),
    }
}
