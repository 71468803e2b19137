//! Capture of a module.

use gentropi::raw::{self, CaptureTables};
use text::{Answer, Capture, tables};

use super::{Asked, count};
use crate::Lent;

pub fn ask(capture: &Capture) -> Asked {
    let handed = tables::of_capture(capture);
    let tables = CaptureTables {
        n: count(handed.n),
        d: count(handed.d),
        recursive: handed.recursive,
        start: handed.start,
        flags: &handed.flags,
        first: &handed.first,
        dependency: &handed.dep_module,
        next: &handed.dep_next,
    };
    let [marks, scratch] = handed.areas;
    let mut marks = Lent::new("marks", marks);
    let mut scratch = Lent::new("scratch", scratch);
    let number = raw::capture(&tables, marks.lend(), scratch.lend());
    if number != 0 {
        return Asked::refused(number, [marks.untouched(), scratch.untouched()]);
    }
    let answer = Answer::Capture(marks.first(tables.n).to_vec());
    Asked::answered(answer, [marks.kept_past(tables.n), scratch.zeros()])
}
