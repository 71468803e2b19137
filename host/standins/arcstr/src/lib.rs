//! Stand-in for `arcstr`: a shared text.
//!
//! Assumes: equality, order and hash are those of the text, so order is byte order.
#![forbid(unsafe_code)]

use std::{fmt, ops::Deref, sync::Arc};

/// A shared text.
#[derive(Clone, PartialEq, Eq, PartialOrd, Ord, Hash)]
pub struct ArcStr(Arc<str>);

impl ArcStr {
    /// The text itself.
    #[inline]
    pub fn as_str(&self) -> &str {
        &self.0
    }
}

impl From<&str> for ArcStr {
    #[inline]
    fn from(text: &str) -> Self {
        Self(Arc::from(text))
    }
}

impl From<String> for ArcStr {
    #[inline]
    fn from(text: String) -> Self {
        Self(Arc::from(text))
    }
}

impl Deref for ArcStr {
    type Target = str;
    #[inline]
    fn deref(&self) -> &str {
        &self.0
    }
}

impl fmt::Debug for ArcStr {
    fn fmt(&self, f: &mut fmt::Formatter<'_>) -> fmt::Result {
        fmt::Debug::fmt(&*self.0, f)
    }
}

impl fmt::Display for ArcStr {
    fn fmt(&self, f: &mut fmt::Formatter<'_>) -> fmt::Result {
        f.write_str(&self.0)
    }
}
