//! The words of one line, each read as what is expected of it.

use std::str::{FromStr, SplitWhitespace};

use crate::{Options, Quoted, Record, TextError};

/// The longest table that a text may ask for, in entries.
const LONGEST_TABLE: usize = 1 << 24;

/// The longest area that a text may ask for, in entries.
const LONGEST_AREA: usize = 1 << 30;

/// Walks the words of one line.
#[derive(Clone)]
pub struct Words<'a> {
    line: usize,
    text: &'a str,
    rest: SplitWhitespace<'a>,
}

impl<'a> Words<'a> {
    /// The words of a line.
    pub fn new(line: usize, text: &'a str) -> Self {
        Self { line, text, rest: text.split_whitespace() }
    }

    /// Whether the line is empty or a comment.
    pub fn is_passed_over(&self) -> bool {
        let text = self.text.trim_start();
        text.is_empty() || text.starts_with('#')
    }

    /// An error that names this line.
    pub fn error<T>(&self, message: impl Into<String>) -> Result<T, TextError> {
        Err(TextError { line: self.line, message: message.into() })
    }

    /// An error about a word that isn't what it has to be.
    fn unlike<T>(&self, word: &str, message: &str) -> Result<T, TextError> {
        self.error(format!("{message}: `{}`", Quoted(word)))
    }

    /// The next word.
    pub fn word(&mut self, what: &str) -> Result<&'a str, TextError> {
        match self.rest.next() {
            Some(word) => Ok(word),
            None => self.error(format!("the line ends where {what} is expected")),
        }
    }

    /// The next word, which must be this one.
    pub fn exactly(&mut self, wanted: &str) -> Result<(), TextError> {
        match self.rest.next() {
            Some(word) if word == wanted => Ok(()),
            Some(word) => self.error(format!("`{wanted}` is expected, not `{}`", Quoted(word))),
            None => self.error(format!("`{wanted}` is expected, not an empty line")),
        }
    }

    /// The end of the line.
    pub fn end(&mut self) -> Result<(), TextError> {
        match self.rest.next() {
            None => Ok(()),
            Some(word) => {
                self.error(format!("nothing more is expected, but `{}` follows", Quoted(word)))
            }
        }
    }

    /// Whether the line has ended.
    pub fn is_at_end(&self) -> bool {
        self.rest.clone().next().is_none()
    }

    /// A decimal number of the wanted width.
    pub fn number<T: FromStr>(&mut self, what: &str) -> Result<T, TextError> {
        let word = self.word(what)?;
        match decimal(word) {
            Some(number) => Ok(number),
            None => self.unlike(word, &format!("{what} is no decimal number in range")),
        }
    }

    /// A decimal count of items that follow, or the length of a table.
    pub fn length(&mut self, what: &str) -> Result<usize, TextError> {
        self.at_most(what, LONGEST_TABLE)
    }

    /// The decimal length of an area.
    pub fn area(&mut self, what: &str) -> Result<usize, TextError> {
        self.at_most(what, LONGEST_AREA)
    }

    fn at_most(&mut self, what: &str, longest: usize) -> Result<usize, TextError> {
        let length = self.number(what)?;
        if length > longest {
            return self.error(format!("{what} is above {longest}: `{length}`"));
        }
        Ok(length)
    }

    /// A hexadecimal word.
    pub fn hex(&mut self, what: &str) -> Result<u64, TextError> {
        let word = self.word(what)?;
        match hexadecimal(word) {
            Some(number) => Ok(number),
            None => self.unlike(word, &format!("{what} is no hexadecimal number of 64 bits")),
        }
    }

    /// Four hexadecimal entry words.
    pub fn bits(&mut self) -> Result<[u64; 4], TextError> {
        Ok([self.hex("W0")?, self.hex("W1")?, self.hex("W2")?, self.hex("W3")?])
    }

    /// The sixteen digits of a double.
    pub fn double(&mut self, what: &str) -> Result<f64, TextError> {
        let word = self.word(what)?;
        match hexadecimal(word) {
            Some(bits) if word.len() == 16 => Ok(f64::from_bits(bits)),
            _ => self.unlike(word, &format!("{what} is no double of 16 hexadecimal digits")),
        }
    }

    /// Yes or no.
    pub fn yes(&mut self, what: &str) -> Result<bool, TextError> {
        match self.word(what)? {
            "1" => Ok(true),
            "0" => Ok(false),
            word => self.unlike(word, &format!("{what} is neither 1 nor 0")),
        }
    }

    /// `-`, or what `read` makes of the next word.
    pub fn option<T>(
        &mut self,
        what: &str,
        read: impl FnOnce(&mut Self, &str) -> Result<T, TextError>,
    ) -> Result<Option<T>, TextError> {
        if self.rest.clone().next() == Some("-") {
            self.rest.next();
            return Ok(None);
        }
        read(self, what).map(Some)
    }

    /// Bytes as hexadecimal pairs; `.` stands for none.
    pub fn bytes(&mut self, what: &str) -> Result<Vec<u8>, TextError> {
        let word = self.word(what)?;
        match pairs(word) {
            Some(bytes) => Ok(bytes),
            None => self.unlike(word, &format!("{what} is neither `.` nor hexadecimal pairs")),
        }
    }

    /// A dependency record.
    pub fn record(&mut self) -> Result<Record, TextError> {
        Ok(Record { module: self.number("MODULE")?, next: self.number("NEXT")? })
    }

    /// The six options that a group shares with the build.
    pub fn options(&mut self) -> Result<Options, TextError> {
        Ok(Options {
            min_size: self.option("MIN_SIZE", Self::double)?,
            max_size: self.option("MAX_SIZE", Self::double)?,
            min_module_size: self.option("MIN_MODULE_SIZE", Self::double)?,
            max_module_size: self.option("MAX_MODULE_SIZE", Self::double)?,
            min_share_count: self.option("MIN_SHARE_COUNT", Self::number)?,
            recursive: self.option("RECURSIVE", Self::yes)?,
        })
    }

    /// As many items as said, each read in the same way.
    pub fn times<T>(
        &mut self,
        count: usize,
        mut read: impl FnMut(&mut Self) -> Result<T, TextError>,
    ) -> Result<Vec<T>, TextError> {
        (0..count).map(|_| read(self)).collect()
    }

    /// All items up to the end of the line, each read in the same way.
    pub fn all<T>(
        &mut self,
        mut read: impl FnMut(&mut Self) -> Result<T, TextError>,
    ) -> Result<Vec<T>, TextError> {
        let mut items = Vec::new();
        while !self.is_at_end() {
            items.push(read(self)?);
        }
        Ok(items)
    }
}

/// A number written with digits alone.
pub fn decimal<T: FromStr>(word: &str) -> Option<T> {
    let digits = !word.is_empty() && word.bytes().all(|byte| byte.is_ascii_digit());
    if digits { word.parse().ok() } else { None }
}

/// A number written with hexadecimal digits alone.
pub fn hexadecimal(word: &str) -> Option<u64> {
    let digits = word.bytes().all(|byte| byte.is_ascii_hexdigit());
    if digits { u64::from_str_radix(word, 16).ok() } else { None }
}

/// Bytes written as hexadecimal pairs.
fn pairs(word: &str) -> Option<Vec<u8>> {
    if word == "." {
        return Some(Vec::new());
    }
    let digits: Vec<u8> = word.chars().map(nibble).collect::<Option<_>>()?;
    if !digits.len().is_multiple_of(2) {
        return None;
    }
    Some(digits.chunks_exact(2).map(|pair| pair[0] << 4 | pair[1]).collect())
}

/// The value of one hexadecimal digit.
fn nibble(digit: char) -> Option<u8> {
    digit.to_digit(16).and_then(|value| u8::try_from(value).ok())
}
