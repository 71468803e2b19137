//! What can be timed on both sides.

/// Microseconds of one call.
pub type Micros = f64;

/// A call that is ready on both sides.
pub trait Case {
    /// The crate's text, once.
    fn of_crate(&mut self) -> Micros;
    /// The library, once.
    fn of_library(&mut self) -> Micros;
    /// The sum of every entry of every table that the library is handed, once.
    fn pass(&mut self) -> Micros;
    /// How far the sides agree.
    fn agreement(&mut self) -> Agreement;
}

/// How far two answers agree.
#[derive(Debug, Clone, Copy, PartialEq, Eq)]
pub enum Agreement {
    /// They are the same.
    Same,
    /// The chunks are the same, but their order on the crate's side comes from hashing.
    SameChunks,
    /// They differ.
    Different,
}

impl Agreement {
    /// As it stands in the table.
    pub fn word(self) -> &'static str {
        match self {
            Self::Same => "same",
            Self::SameChunks => "same chunks",
            Self::Different => "DIFFERENT",
        }
    }
}
