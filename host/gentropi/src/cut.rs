//! Where an oversized list of modules is cut in two.

use crate::{Ids, Refusal, raw};

/// A place to cut, with the sizes of the two sides.
#[derive(Debug, Clone, Copy, PartialEq)]
pub struct CutPoint {
    /// How many modules are on the left, from 1 to one less than there are.
    pub index: usize,
    /// The size of the left side.
    pub left_size: f64,
    /// The size of the right side.
    pub right_size: f64,
}

/// Where modules are cut, or why they aren't.
#[derive(Debug, Clone, Copy, PartialEq)]
pub enum Cut {
    /// There are fewer than two modules, so there is no place for a cut.
    FewerThanTwo,
    /// There are two or more, and each cut leaves a side that doesn't reach the minimum.
    NoneAllowed,
    /// The best cut that is allowed.
    At(CutPoint),
}

impl Cut {
    /// The place of the cut, if there is one.
    ///
    /// ```
    /// use gentropi::{Cut, IdBuf, cut};
    ///
    /// let ids = IdBuf::from_iter(["m1", "m2"]);
    /// let point = cut(ids.as_ids(), &[10, 20], 0.0, 20.0).unwrap().point();
    /// assert_eq!(point.map(|point| point.index), Some(1));
    /// assert_eq!(Cut::NoneAllowed.point(), None);
    /// ```
    pub const fn point(self) -> Option<CutPoint> {
        match self {
            Self::At(point) => Some(point),
            Self::FewerThanTwo | Self::NoneAllowed => None,
        }
    }

    /// What an accepted call wrote.
    fn written(places: raw::CutPlaces) -> Self {
        let raw::CutPlaces { why_none, index, left: left_size, right: right_size } = places;
        match why_none {
            0 => Self::At(CutPoint { index, left_size, right_size }),
            1 => Self::FewerThanTwo,
            2 => Self::NoneAllowed,
            other => unreachable!("the library is proved to write 0, 1 or 2, not {other}"),
        }
    }
}

/// The best place to cut modules in the order given, or why there is none.
///
/// A cut is allowed when both sides reach `minimum`. Of the allowed ones, scanned upwards, a later
/// one replaces the best so far if the ids beside it are less alike by more than 10, or are about
/// as alike and it leaves fewer sides above `maximum`, or else a smaller larger side.
///
/// # Errors
///
/// Refused with 1, 2, 3, 6 or 8. There are as many modules as sizes.
///
/// ```
/// use gentropi::{Cut, CutPoint, IdBuf, Ids, cut};
///
/// let ids = IdBuf::from_iter(["m1", "m2", "m3"]);
/// let halves = CutPoint { index: 2, left_size: 30.0, right_size: 30.0 };
/// assert_eq!(cut(ids.as_ids(), &[10, 20, 30], 30.0, 40.0), Ok(Cut::At(halves)));
/// assert_eq!(cut(ids.as_ids(), &[10, 20, 30], 31.0, 40.0), Ok(Cut::NoneAllowed));
/// // One module is fewer than two, whatever the limits are.
/// let one = Ids { bytes: b"m1", offsets: &[0, 2] };
/// assert_eq!(cut(one, &[10], 31.0, 40.0), Ok(Cut::FewerThanTwo));
/// ```
pub fn cut(ids: Ids<'_>, sizes: &[u64], minimum: f64, maximum: f64) -> Result<Cut, Refusal> {
    let Ids { bytes, offsets } = ids;
    let tables = raw::CutTables { n: sizes.len(), bytes, offsets, sizes, minimum, maximum };
    let mut places = raw::CutPlaces::default();
    Refusal::check(raw::cut(&tables, &mut places))?;
    Ok(Cut::written(places))
}
