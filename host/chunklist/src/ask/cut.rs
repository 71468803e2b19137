//! Cut of a list of modules.

use gentropi::raw::{self, CutPlaces, CutTables};
use text::{Answer, Cut, CutAnswer, CutOutcome, tables};

use super::{Asked, count};
use crate::Pattern;

pub fn ask(cut: &Cut) -> Asked {
    let tables::CutTables { n, minimum, maximum, ids, offsets, sizes } = tables::of_cut(cut);
    let tables =
        CutTables { n: count(n), bytes: &ids, offsets: &offsets, sizes: &sizes, minimum, maximum };
    let before = patterned();
    let mut places = before;
    let number = raw::cut(&tables, &mut places);
    if number != 0 {
        return Asked::refused(number, [kept(before, places, "a refused call")]);
    }
    let (outcome, fault) = answered(before, places);
    Asked::answered(Answer::Cut(outcome), [fault])
}

/// What an accepted call says, and what is wrong with its places.
fn answered(before: CutPlaces, places: CutPlaces) -> (CutOutcome, Option<String>) {
    let CutPlaces { why_none, index, left, right } = places;
    let none = CutPlaces { why_none, ..before };
    let at = CutOutcome::At(CutAnswer { index: index as u64, left, right });
    match why_none {
        0 => (at, None),
        1 => (CutOutcome::FewerThanTwo, kept(none, places, "a call without a cut")),
        2 => (CutOutcome::NoneAllowed, kept(none, places, "a call without a cut")),
        other => (at, Some(format!("why_none is {other}, which is neither a cut nor a none"))),
    }
}

/// The places before the call. Each holds what no call has reason to write there.
fn patterned() -> CutPlaces {
    CutPlaces {
        why_none: u8::at(0),
        index: count(u64::at(0)),
        left: f64::from_bits(u64::at(1)),
        right: f64::from_bits(u64::at(2)),
    }
}

/// What is wrong if a place isn't as it should be.
fn kept(wanted: CutPlaces, places: CutPlaces, call: &str) -> Option<String> {
    let bits = |places: CutPlaces| {
        (places.why_none, places.index, places.left.to_bits(), places.right.to_bits())
    };
    let kept = bits(wanted) == bits(places);
    (!kept).then(|| format!("the place of the cut was written by {call}"))
}

#[cfg(test)]
mod tests {
    use gentropi::raw::CutPlaces;
    use text::CutOutcome;

    use super::{answered, patterned};

    #[test]
    fn a_none_leaves_the_other_places() {
        let before = patterned();
        for (why_none, outcome) in [(1, CutOutcome::FewerThanTwo), (2, CutOutcome::NoneAllowed)] {
            let none = CutPlaces { why_none, ..before };
            assert_eq!(answered(before, none), (outcome, None));
            for wrong in [
                CutPlaces { index: 1, ..none },
                CutPlaces { left: 1.0, ..none },
                CutPlaces { right: 1.0, ..none },
            ] {
                let fault = Some("the place of the cut was written by a call without a cut".into());
                assert_eq!(answered(before, wrong), (outcome, fault));
            }
        }
    }

    #[test]
    fn a_place_that_was_not_written_is_told() {
        let (_, fault) = answered(patterned(), patterned());
        assert_eq!(fault.as_deref(), Some("why_none is 160, which is neither a cut nor a none"));
    }
}
