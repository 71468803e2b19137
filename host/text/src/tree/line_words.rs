//! The words of one line of a tree: quotes keep blanks together, and `#` begins a comment.

use std::iter::Peekable;
use std::str::Chars;

use super::{Mention, nearest};
use crate::{Quoted, TextError};

/// A word, and whether it stood in quotes. A quoted word is never a keyword.
#[derive(Debug, Clone, PartialEq, Eq)]
struct Word {
    text: String,
    quoted: bool,
}

/// Walks the words of one line.
pub struct LineWords {
    pub line: usize,
    rest: Peekable<std::vec::IntoIter<Word>>,
}

impl LineWords {
    /// The words of a line, up to its comment.
    pub fn new(line: usize, text: &str) -> Result<Self, TextError> {
        let mut chars = text.chars().peekable();
        let mut words = Vec::new();
        while let Some(word) = next_word(&mut chars) {
            words.push(word.map_err(|message| TextError { line, message })?);
        }
        Ok(Self { line, rest: words.into_iter().peekable() })
    }

    /// An error that names this line.
    pub fn error<T>(&self, message: impl Into<String>) -> Result<T, TextError> {
        Err(TextError { line: self.line, message: message.into() })
    }

    /// Whether the line has ended.
    pub fn is_at_end(&mut self) -> bool {
        self.rest.peek().is_none()
    }

    /// The next word if it is one of these keywords.
    pub fn keyword(&mut self, keywords: &[&'static str]) -> Option<&'static str> {
        let word = self.rest.peek().filter(|word| !word.quoted)?;
        let keyword = keywords.iter().find(|keyword| **keyword == word.text)?;
        self.rest.next();
        Some(keyword)
    }

    /// The next word; the error says what was expected.
    pub fn word(&mut self, expected: &str) -> Result<String, TextError> {
        match self.rest.next() {
            Some(word) => Ok(word.text),
            None => self.error(format!("the line ends where {expected} is expected")),
        }
    }

    /// The next word, as one that names something.
    pub fn mention(&mut self, expected: &str) -> Result<Mention, TextError> {
        Ok(Mention { line: self.line, text: self.word(expected)? })
    }

    /// One word or more, up to the end of the line or to one of these keywords.
    pub fn mentions(
        &mut self,
        expected: &str,
        keywords: &[&'static str],
    ) -> Result<Vec<Mention>, TextError> {
        let is_keyword = |word: &Word| !word.quoted && keywords.contains(&word.text.as_str());
        let mut mentions = Vec::new();
        while let Some(word) = self.rest.next_if(|word| !is_keyword(word)) {
            mentions.push(Mention { line: self.line, text: word.text });
        }
        if mentions.is_empty() {
            let word = self.word(expected)?;
            return self.error(format!("{expected} is expected, not `{}`", Quoted(&word)));
        }
        Ok(mentions)
    }

    /// An error about the next word, which is none of the expected keywords.
    pub fn unexpected<T>(&mut self, what: &str, keywords: &[&str]) -> Result<T, TextError> {
        let word = self.word(what)?;
        let hint = nearest::hint(&word, keywords.iter().copied());
        self.error(format!("{what} is expected, not `{}`{hint}", Quoted(&word)))
    }
}

/// The next word of a line, or `None` at its end or comment.
fn next_word(chars: &mut Peekable<Chars<'_>>) -> Option<Result<Word, String>> {
    while chars.next_if(|char| char.is_whitespace()).is_some() {}
    match chars.peek()? {
        '#' => None,
        '"' => {
            chars.next();
            Some(quoted(chars).map(|text| Word { text, quoted: true }))
        }
        _ => {
            let mut text = String::new();
            while let Some(char) = chars.next_if(|char| !char.is_whitespace()) {
                text.push(char);
            }
            Some(Ok(Word { text, quoted: false }))
        }
    }
}

/// The rest of a quoted word.
fn quoted(chars: &mut Peekable<Chars<'_>>) -> Result<String, String> {
    let mut text = String::new();
    loop {
        match chars.next().ok_or("a closing `\"` is expected before the end of the line")? {
            '"' => break,
            '\\' => match chars.next() {
                Some(char @ ('"' | '\\')) => text.push(char),
                _ => return Err("`\\\"` or `\\\\` is expected after a `\\` in quotes".into()),
            },
            char => text.push(char),
        }
    }
    match chars.peek() {
        Some(char) if !char.is_whitespace() => {
            Err(format!("a blank is expected after a closing `\"`, not `{}`", char.escape_debug()))
        }
        _ => Ok(text),
    }
}
