//! Why a chunk is as large as it is.

/// Whether a chunk is above its maximum, and why it is. The maximum is the `max_size` in force: the
/// group's, else that of the build.
#[derive(Debug, Clone, Copy, PartialEq, Eq, PartialOrd, Ord, Hash)]
pub enum Mark {
    /// 0: its size is at most its maximum, or it has none.
    Within,
    /// 1: it is above its maximum, and has one module.
    OneModule,
    /// 2: it is above its maximum and has two or more modules, but each cut of them in id order
    /// leaves a side below the `min_size` in force.
    NoCutAllowed,
}

impl Mark {
    /// All marks, by their numbers.
    pub const ALL: [Self; 3] = [Self::Within, Self::OneModule, Self::NoCutAllowed];

    /// The mark with a number that [`chunks`](crate::chunks) wrote; it writes no other.
    ///
    /// ```
    /// use gentropi::Mark;
    ///
    /// assert_eq!(Mark::numbered(1), Some(Mark::OneModule));
    /// assert_eq!(Mark::numbered(3), None);
    /// ```
    pub const fn numbered(number: u8) -> Option<Self> {
        match number {
            0 => Some(Self::Within),
            1 => Some(Self::OneModule),
            2 => Some(Self::NoCutAllowed),
            _ => None,
        }
    }

    /// Its number.
    ///
    /// ```
    /// assert_eq!(gentropi::Mark::NoCutAllowed.number(), 2);
    /// ```
    pub const fn number(self) -> u8 {
        match self {
            Self::Within => 0,
            Self::OneModule => 1,
            Self::NoCutAllowed => 2,
        }
    }
}

#[cfg(test)]
mod tests {
    use super::Mark;

    #[test]
    fn each_number_has_one_mark_and_no_other_number_has_any() {
        let marked: Vec<_> = (0..=u8::MAX).filter_map(Mark::numbered).collect();
        assert_eq!(marked, Mark::ALL);
        assert_eq!(Mark::ALL.map(Mark::number), [0, 1, 2]);
    }
}
