//! Stand-in for `anyhow`: an error that is a message, and the macro that formats one.
//!
//! Assumes: nothing but that an error carries a text. The judge's callbacks never fail.
#![forbid(unsafe_code)]

use std::fmt;

/// An error with a message.
#[derive(Debug)]
pub struct Error(pub String);

impl fmt::Display for Error {
    fn fmt(&self, f: &mut fmt::Formatter<'_>) -> fmt::Result {
        f.write_str(&self.0)
    }
}

/// A result with the error above.
pub type Result<T> = std::result::Result<T, Error>;

/// Makes an error from a format string.
#[macro_export]
macro_rules! anyhow {
    ($($part:tt)*) => { $crate::Error(format!($($part)*)) };
}
