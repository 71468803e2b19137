//! The order in which a map or a set is walked, chosen at run time for each kind of key.

use std::{
    cell::{Cell, RefCell},
    rc::Rc,
};

/// An order of walking.
#[derive(Clone, Debug, Default, PartialEq, Eq)]
pub enum Order {
    /// The hash table's own.
    #[default]
    Own,
    /// The key that came in first goes first.
    Inserted,
    /// The lower number first.
    Ascending,
    /// The higher number first.
    Descending,
    /// The lower entry of this table first, which is looked up by the key's number.
    Ranked(Rc<[u32]>),
    /// By the lowest entry of this table among the numbers that stand under a key; where that is
    /// higher goes first.
    HeldDescending(Rc<[u32]>),
    /// An order drawn from this seed, and drawn anew for each walk.
    Shuffled(u64),
}

/// The kinds of key whose maps or sets the crate's text walks.
#[derive(Clone, Copy, Debug, PartialEq, Eq)]
pub enum Kind {
    /// Numbers of modules.
    Module,
    /// Keys of entries-aware subgroups (bare `u32`).
    Subgroup,
}

/// A key with a number, so that an order can be chosen for it.
pub trait Numbered {
    /// Which choice of order holds for it.
    const KIND: Kind;
    /// Its number.
    fn number(&self) -> u32;
}

impl Numbered for u32 {
    const KIND: Kind = Kind::Subgroup;
    fn number(&self) -> u32 {
        *self
    }
}

/// What stands under a key of a map, so that an order can be chosen by it.
pub trait Holding {
    /// The numbers that it holds, in any order.
    fn numbers(&self) -> impl Iterator<Item = u32>;
}

/// A set is a map with nothing under its keys.
impl Holding for () {
    fn numbers(&self) -> impl Iterator<Item = u32> {
        std::iter::empty()
    }
}

/// The chosen orders.
#[derive(Clone, Debug, Default, PartialEq, Eq)]
pub struct Orders {
    pub modules: Order,
    pub subgroups: Order,
}

impl Orders {
    /// The order of this kind of key.
    fn of(&self, kind: Kind) -> &Order {
        match kind {
            Kind::Module => &self.modules,
            Kind::Subgroup => &self.subgroups,
        }
    }
}

thread_local! {
    static CHOSEN: RefCell<Orders> = RefCell::default();
    static WALKS: Cell<u64> = const { Cell::new(0) };
}

/// Runs `work` under these orders, then brings back those from before.
pub fn under<T>(orders: Orders, work: impl FnOnce() -> T) -> T {
    let before = CHOSEN.replace(orders);
    WALKS.set(0);
    let result = work();
    CHOSEN.set(before);
    result
}

/// What an order can be decided by: when a key came in, its number, and the lowest entry of what
/// stands under it.
#[derive(Clone, Copy)]
pub(crate) struct Stop {
    pub inserted: u64,
    pub number: u32,
    pub lowest: u32,
}

/// The lowest entry of the chosen table among the numbers that stand under a key; zero where the
/// order doesn't ask for it.
pub(crate) fn lowest_held(kind: Kind, value: &impl Holding) -> u32 {
    CHOSEN.with_borrow(|orders| match orders.of(kind) {
        Order::HeldDescending(table) => {
            value.numbers().map(|number| table[number as usize]).min().unwrap_or(0)
        }
        _ => 0,
    })
}

/// Puts the items of one walk, handed in as the table has them, into the chosen order.
pub(crate) fn arrange<T>(kind: Kind, stops: Vec<Stop>, items: Vec<T>) -> std::vec::IntoIter<T> {
    let mut items: Vec<Option<T>> = items.into_iter().map(Some).collect();
    let taken = positions(kind, &stops).into_iter().filter_map(|at| items[at].take());
    taken.collect::<Vec<T>>().into_iter()
}

/// The positions of the stops of one walk in the chosen order.
fn positions(kind: Kind, stops: &[Stop]) -> Vec<usize> {
    let walk = WALKS.get();
    WALKS.set(walk + 1);
    let mut positions: Vec<usize> = (0..stops.len()).collect();
    CHOSEN.with_borrow(|orders| {
        let order = orders.of(kind);
        if *order != Order::Own {
            positions.sort_by_cached_key(|at| order.place(walk, stops[*at]));
        }
    });
    positions
}

impl Order {
    /// What stands lower comes first.
    fn place(&self, walk: u64, stop: Stop) -> u64 {
        match self {
            Self::Own => 0,
            Self::Inserted => stop.inserted,
            Self::Ascending => u64::from(stop.number),
            Self::Descending => u64::from(u32::MAX - stop.number),
            Self::Ranked(ranks) => u64::from(ranks[stop.number as usize]),
            Self::HeldDescending(_) => u64::from(u32::MAX - stop.lowest),
            Self::Shuffled(seed) => mix(*seed, walk, stop.number),
        }
    }
}

/// A well mixed word from a seed, the count of walks before this one, and a key's number.
fn mix(seed: u64, walk: u64, number: u32) -> u64 {
    let mut word =
        seed ^ walk.wrapping_mul(0x9e37_79b9_7f4a_7c15) ^ u64::from(number).rotate_left(40);
    for _ in 0..2 {
        word = (word ^ (word >> 31)).wrapping_mul(0xbf58_476d_1ce4_e5b9);
    }
    word ^ (word >> 29)
}
