//! Sizes, limits, numbers and yes or no, as a person writes them.

use std::str::FromStr;

use super::line_words::LineWords;
use crate::{Quoted, TextError, words::decimal};

/// The letters that stand for 1,024 and its powers.
const UNITS: [(char, u64); 3] = [('k', 1 << 10), ('m', 1 << 20), ('g', 1 << 30)];

/// The digits of a size, and what they are multiplied with.
fn scaled(word: &str) -> (&str, u64) {
    for (letter, factor) in UNITS {
        if let Some(digits) = word.strip_suffix([letter, letter.to_ascii_uppercase()]) {
            return (digits, factor);
        }
    }
    (word, 1)
}

/// A whole count of bytes: `10`, `64k`, `2m`.
pub fn whole_size(word: &str) -> Option<u64> {
    let (digits, factor) = scaled(word);
    decimal::<u64>(digits)?.checked_mul(factor)
}

/// A limit: as a size, or with a fraction, `1.5k`.
fn limit_value(word: &str) -> Option<f64> {
    let (digits, factor) = scaled(word);
    let (whole, fraction) = digits.split_once('.').unwrap_or((digits, "0"));
    let all_digits = |part: &str| !part.is_empty() && part.bytes().all(|b| b.is_ascii_digit());
    if !all_digits(whole) || !all_digits(fraction) {
        return None;
    }
    let value = digits.parse::<f64>().ok()? * factor as f64;
    value.is_finite().then_some(value)
}

impl LineWords {
    /// A whole count of bytes.
    pub fn size(&mut self) -> Result<u64, TextError> {
        self.value("a size like 10, 64k or 2m, below 2^64", whole_size)
    }

    /// A limit in bytes.
    pub fn limit(&mut self) -> Result<f64, TextError> {
        self.value("a limit like 10, 64k or 1.5m", limit_value)
    }

    /// A whole number of the wanted width.
    pub fn number<T: FromStr>(&mut self, largest: u64) -> Result<T, TextError> {
        self.value(&format!("a whole number from 0 to {largest}"), decimal)
    }

    /// `true` or `false`.
    pub fn yes(&mut self) -> Result<bool, TextError> {
        self.value("`true` or `false`", |word| word.parse().ok())
    }

    /// The next word, read in some way.
    pub fn value<T>(
        &mut self,
        expected: &str,
        read: impl FnOnce(&str) -> Option<T>,
    ) -> Result<T, TextError> {
        let word = self.word(expected)?;
        match read(&word) {
            Some(value) => Ok(value),
            None => self.error(format!("{expected} is expected, not `{}`", Quoted(&word))),
        }
    }
}

#[cfg(test)]
mod tests {
    use super::{limit_value, whole_size};

    #[test]
    fn sizes_have_units_of_1024() {
        assert_eq!(whole_size("10"), Some(10));
        assert_eq!(whole_size("64k"), Some(65_536));
        assert_eq!(whole_size("2M"), Some(2_097_152));
        assert_eq!(whole_size("1g"), Some(1 << 30));
        for bad in
            ["", "k", "-1", "+1", "1.5k", "1kb", "18446744073709551616", "18014398509481984k"]
        {
            assert_eq!(whole_size(bad), None, "{bad}");
        }
    }

    #[test]
    fn limits_may_have_a_fraction() {
        assert_eq!(limit_value("1.5k"), Some(1_536.0));
        assert_eq!(limit_value("0.25"), Some(0.25));
        for bad in ["", ".5", "1.", "-1", "nan", "inf", "1e3", "1.2.3"] {
            assert_eq!(limit_value(bad), None, "{bad}");
        }
    }
}
