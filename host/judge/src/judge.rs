//! Asks one copy of the crate's text.

use std::fmt;

use rustc_hash::order::{Order, Orders};
use text::{Answer, Chunks, Question, tables::effective};

use crate::{CrateText, copies, leaves, names, whole};

/// In which order hash maps and hash sets are walked.
#[derive(Debug, Clone, Copy, PartialEq, Eq)]
pub enum Walk {
    /// So that the text breaks its ties as the papers do: sets of modules in execution order, which
    /// numbers subgroups by first appearance, and the finished subgroups by the smallest id that
    /// each holds, from the last one down, since those that are pushed last are taken off first.
    Document,
    /// As the hash table has them.
    Own,
    /// As they came in.
    Inserted,
    /// By number, upwards.
    Ascending,
    /// By number, downwards.
    Descending,
    /// Drawn from a seed.
    Shuffled(u64),
}

impl Walk {
    /// The orders for modules that have these execution orders, and ids at these places in byte
    /// order.
    pub(crate) fn orders(self, exec_orders: &[u32], id_places: &[u32]) -> Orders {
        let both = |order: Order| Orders { modules: order.clone(), subgroups: order };
        match self {
            Self::Document => Orders {
                modules: Order::Ranked(exec_orders.into()),
                subgroups: Order::HeldDescending(id_places.into()),
            },
            Self::Own => both(Order::Own),
            Self::Inserted => both(Order::Inserted),
            Self::Ascending => both(Order::Ascending),
            Self::Descending => both(Order::Descending),
            Self::Shuffled(seed) => both(Order::Shuffled(seed)),
        }
    }
}

/// How a group's answers reach the text.
#[derive(Debug, Clone, Copy, PartialEq, Eq)]
pub enum Callbacks {
    /// By a test function and a naming function.
    Functions,
    /// By no test where all modules match, else by a pattern; by one name where it is the only
    /// one. The limits of a filter are then global ones.
    Plainest,
}

/// Why the text can't be asked.
#[derive(Debug, Clone, PartialEq, Eq)]
pub enum Outside {
    /// An id isn't UTF-8, and the crate's ids are.
    IdIsNoText,
    /// An entry of an entries-aware chunk has an empty name, which the crate shows as a bare "~" and
    /// document 02 passes over.
    EmptyEntryName,
    /// The text and its probed copy disagree, or the text failed.
    Broken(String),
}

impl fmt::Display for Outside {
    fn fmt(&self, f: &mut fmt::Formatter<'_>) -> fmt::Result {
        match self {
            Self::IdIsNoText => write!(f, "an id isn't UTF-8"),
            Self::EmptyEntryName => write!(f, "an entry of the chunk has an empty name"),
            Self::Broken(message) => write!(f, "{message}"),
        }
    }
}

/// One copy of the text, with the order of walking and the form of callbacks to run it under.
#[derive(Clone, Copy)]
pub struct Judge {
    /// The text that answers.
    pub text: &'static CrateText,
    /// The copy with the probe, which has to agree with it and reports the sizes of chunks.
    pub probed: &'static CrateText,
    pub walk: Walk,
    pub callbacks: Callbacks,
}

impl Default for Judge {
    /// The crate's text, unchanged, under the papers' order.
    fn default() -> Self {
        Self {
            text: &copies::unchanged::TEXT,
            probed: &copies::probed::TEXT,
            walk: Walk::Document,
            callbacks: Callbacks::Functions,
        }
    }
}

impl Judge {
    /// A copy with a fault, which has the probe in it.
    pub fn of(text: &'static CrateText) -> Self {
        Self { text, probed: text, ..Self::default() }
    }

    /// What the text answers. Only questions that the papers accept may be asked; areas, which
    /// the crate doesn't have, are passed over.
    pub fn answer(&self, question: &Question) -> Result<Answer, Outside> {
        match &effective(question) {
            Question::Sim(sim) => leaves::similarity(self.text, sim).map(Answer::Sim),
            Question::Cut(cut) => leaves::cut(self.text, cut).map(Answer::Cut),
            Question::Capture(capture) => leaves::capture(self.text, capture).map(Answer::Capture),
            Question::Filter(filter) => leaves::filter(self, filter).map(Answer::Filter),
            Question::Merge(merge) => leaves::merge(self, merge).map(Answer::Merge),
            Question::Name(name) => names::name(self.text, name).map(Answer::Name),
            Question::Chunks(chunks) => whole::chunks(self, &chunks.build).map(Answer::Chunks),
        }
    }
    /// What the text calls the new chunks of a build that document 01 accepts, where entries have
    /// these names. Where a name is cut, this hash stands in it.
    pub fn names(
        &self,
        chunks: &Chunks,
        entry_names: &[Vec<u8>],
        hash: &str,
    ) -> Result<Vec<Vec<u8>>, Outside> {
        match effective(&Question::Chunks(Box::new(chunks.clone()))) {
            Question::Chunks(chunks) => whole::names(self, &chunks.build, entry_names, hash),
            _ => Err(Outside::Broken("a build became another call".into())),
        }
    }
}
