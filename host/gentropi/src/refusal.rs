//! What a call says when it turns its input or its areas away.

use std::fmt;

/// Why a call was turned away: the lowest number, of those that the call tests, whose condition
/// applies. Nothing that was lent to the call has changed.
///
/// The constants can stand in patterns:
///
/// ```
/// use gentropi::{Refusal, similarity};
///
/// match similarity(&[0; 1_025], b"a") {
///     Err(Refusal::ID) => println!("one id is too long"),
///     other => println!("{other:?}"),
/// }
/// ```
#[derive(Debug, Clone, Copy, PartialEq, Eq, PartialOrd, Ord, Hash)]
pub struct Refusal {
    number: u32,
}

impl Refusal {
    /// 1: a count is above its limit (see [`limits`](crate::limits)).
    pub const COUNT: Self = Self::numbered(1);
    /// 2: a table's length is not the one that the counts imply.
    pub const LENGTH: Self = Self::numbered(2);
    /// 3: an offset of ids or names falls or passes the end of the slice, or an id is too long.
    pub const ID: Self = Self::numbered(3);
    /// 4: two modules that are normal and included have the same stable id.
    pub const SAME_ID: Self = Self::numbered(4);
    /// 5: two modules that are normal and included have the same execution order.
    pub const SAME_ORDER: Self = Self::numbered(5);
    /// 6: the sizes add to more than 2^53.
    pub const TOTAL: Self = Self::numbered(6);
    /// 7: a record number or a module in a record is out of range, or a chain doesn't end.
    pub const RECORD: Self = Self::numbered(7);
    /// 8: a limit or a threshold that is given is NaN.
    pub const NAN: Self = Self::numbered(8);
    /// 9: a flag byte is above 7, or an entry bit is not below the count of entries.
    pub const BIT: Self = Self::numbered(9);
    /// 10: an answer or a chunk's number names no name, or the start is no module.
    pub const NUMBER: Self = Self::numbered(10);
    /// 11: the chunk count on entry is above 65,535.
    pub const CHUNK_COUNT: Self = Self::numbered(11);
    /// 12: an output area is too short.
    pub const AREA: Self = Self::numbered(12);
    /// 13: the scratch is too short.
    pub const SCRATCH: Self = Self::numbered(13);
    /// 14: a name isn't UTF-8.
    pub const UTF8: Self = Self::numbered(14);
    /// 15: the names of groups don't strictly ascend in byte order.
    pub const NAME_ORDER: Self = Self::numbered(15);
    /// 16: the hash isn't eight bytes below 128.
    pub const HASH: Self = Self::numbered(16);

    /// All refusals, in ascending order.
    pub const ALL: [Self; 16] = [
        Self::COUNT,
        Self::LENGTH,
        Self::ID,
        Self::SAME_ID,
        Self::SAME_ORDER,
        Self::TOTAL,
        Self::RECORD,
        Self::NAN,
        Self::BIT,
        Self::NUMBER,
        Self::CHUNK_COUNT,
        Self::AREA,
        Self::SCRATCH,
        Self::UTF8,
        Self::NAME_ORDER,
        Self::HASH,
    ];

    const fn numbered(number: u32) -> Self {
        Self { number }
    }

    /// What a function of [`raw`](crate::raw) answered: 0 is an acceptance, any other number a
    /// refusal.
    ///
    /// ```
    /// use gentropi::Refusal;
    ///
    /// assert_eq!(Refusal::check(0), Ok(()));
    /// assert_eq!(Refusal::check(12), Err(Refusal::AREA));
    /// ```
    pub const fn check(number: u32) -> Result<(), Self> {
        match number {
            0 => Ok(()),
            number => Err(Self { number }),
        }
    }

    /// Its number.
    ///
    /// ```
    /// assert_eq!(gentropi::Refusal::TOTAL.number(), 6);
    /// ```
    pub const fn number(self) -> u32 {
        self.number
    }

    /// What its number means.
    ///
    /// ```
    /// assert_eq!(gentropi::Refusal::TOTAL.meaning(), "the sizes add to more than 2^53");
    /// ```
    pub const fn meaning(self) -> &'static str {
        match self.number {
            1 => "a count is above its limit",
            2 => "a table's length is not the one that the counts imply",
            3 => "an offset falls or passes the end, or an id has more than 1,024 bytes",
            4 => "two normal included modules have the same stable id",
            5 => "two normal included modules have the same execution order",
            6 => "the sizes add to more than 2^53",
            7 => "a record or the module it names is out of range, or a chain doesn't end",
            8 => "a limit or a threshold is NaN",
            9 => "a flag byte is above 7, or an entry bit is not below the count of entries",
            10 => "an answer or a number is above the names, or the start module is out of range",
            11 => "the chunk count on entry is above 65,535",
            12 => "an output area is shorter than the call needs",
            13 => "the scratch is shorter than the call needs",
            14 => "a name isn't UTF-8",
            15 => "the names of groups don't strictly ascend in byte order",
            16 => "the hash isn't eight bytes below 128",
            _ => "a condition that this binding doesn't know",
        }
    }
}

impl fmt::Display for Refusal {
    fn fmt(&self, f: &mut fmt::Formatter<'_>) -> fmt::Result {
        write!(f, "refusal {}: {}", self.number, self.meaning())
    }
}

impl std::error::Error for Refusal {}

impl From<Refusal> for u32 {
    fn from(refusal: Refusal) -> Self {
        refusal.number
    }
}

#[cfg(test)]
mod tests {
    use super::Refusal;

    #[test]
    fn numbers_ascend_from_one_and_each_has_a_meaning() {
        for (place, refusal) in Refusal::ALL.into_iter().enumerate() {
            assert_eq!(refusal.number() as usize, place + 1);
            assert_eq!(Refusal::check(refusal.number()), Err(refusal));
            assert!(!refusal.meaning().contains("doesn't know"));
        }
        assert_eq!(Refusal::check(0), Ok(()));
    }

    #[test]
    fn meanings_differ() {
        let mut meanings = Refusal::ALL.map(Refusal::meaning).to_vec();
        meanings.sort_unstable();
        meanings.dedup();
        assert_eq!(meanings.len(), Refusal::ALL.len());
    }

    #[test]
    fn it_is_shown_with_its_number_and_meaning() {
        assert_eq!(Refusal::TOTAL.to_string(), "refusal 6: the sizes add to more than 2^53");
    }
}
