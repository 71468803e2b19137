//! Stable ids or names as parts of one byte slice, and how alike two ids are.

use crate::{Refusal, raw};

/// Similarity of two stable ids: over their common length, each pair of bytes adds 10 less its
/// difference, or nothing if that is negative.
///
/// # Errors
///
/// Refused with 3 ([`Refusal::ID`]) if one of them has more than 1,024 bytes.
///
/// ```
/// assert_eq!(gentropi::similarity(b"a", b"j"), Ok(1));
/// ```
pub fn similarity(lhs: &[u8], rhs: &[u8]) -> Result<u32, Refusal> {
    let mut score = 0;
    Refusal::check(raw::similarity(lhs, rhs, &mut score))?;
    Ok(score)
}

/// Ids or names as the library reads them: `i` is `bytes[offsets[i]..offsets[i + 1]]`.
#[derive(Debug, Clone, Copy, PartialEq, Eq)]
pub struct Ids<'a> {
    /// The slice that the ids are parts of.
    pub bytes: &'a [u8],
    /// One more offset than there are ids.
    pub offsets: &'a [u32],
}

/// Ids or names one after another in a slice of its own.
///
/// ```
/// let ids: gentropi::IdBuf = ["ui/a", "ui/b"].into_iter().collect();
/// assert_eq!(ids.as_ids().bytes, b"ui/aui/b");
/// assert_eq!(ids.as_ids().offsets, [0, 4, 8]);
/// ```
#[derive(Debug, Clone, PartialEq, Eq)]
pub struct IdBuf {
    bytes: Vec<u8>,
    offsets: Vec<u32>,
}

impl IdBuf {
    /// No ids.
    ///
    /// ```
    /// assert_eq!(gentropi::IdBuf::new().as_ids().offsets, [0]);
    /// ```
    pub fn new() -> Self {
        Self { bytes: Vec::new(), offsets: vec![0] }
    }

    /// Adds an id after the others.
    ///
    /// ```
    /// let mut ids = gentropi::IdBuf::new();
    /// ids.push("ui/a");
    /// assert_eq!(ids.as_ids().bytes, b"ui/a");
    /// ```
    pub fn push(&mut self, id: impl AsRef<[u8]>) {
        self.bytes.extend_from_slice(id.as_ref());
        // Past 2^32 bytes an id is too long or there are too many ids, and either is refused.
        self.offsets.push(u32::try_from(self.bytes.len()).unwrap_or(u32::MAX));
    }

    /// How many ids there are.
    ///
    /// ```
    /// assert_eq!(gentropi::IdBuf::from_iter(["a", "b"]).len(), 2);
    /// ```
    pub fn len(&self) -> usize {
        self.offsets.len() - 1
    }

    /// Whether there are none.
    ///
    /// ```
    /// assert!(gentropi::IdBuf::new().is_empty());
    /// ```
    pub fn is_empty(&self) -> bool {
        self.len() == 0
    }

    /// The ids, to hand over.
    ///
    /// ```
    /// assert_eq!(gentropi::IdBuf::from_iter(["a", "bc"]).as_ids().offsets, [0, 1, 3]);
    /// ```
    pub fn as_ids(&self) -> Ids<'_> {
        Ids { bytes: &self.bytes, offsets: &self.offsets }
    }
}

impl Default for IdBuf {
    fn default() -> Self {
        Self::new()
    }
}

impl<T: AsRef<[u8]>> Extend<T> for IdBuf {
    fn extend<I: IntoIterator<Item = T>>(&mut self, ids: I) {
        ids.into_iter().for_each(|id| self.push(id));
    }
}

impl<T: AsRef<[u8]>> FromIterator<T> for IdBuf {
    fn from_iter<I: IntoIterator<Item = T>>(ids: I) -> Self {
        let mut buf = Self::new();
        buf.extend(ids);
        buf
    }
}
