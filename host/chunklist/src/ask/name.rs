//! Name of a chunk.

use gentropi::raw::{self, NameTables};
use text::{Answer, Name, tables};

use super::{Asked, count};
use crate::Lent;

pub fn ask(name: &Name) -> Asked {
    let handed = tables::of_name(name);
    let tables = NameTables {
        k: count(handed.k),
        e: count(handed.e),
        group_names: &handed.group_names,
        group_offsets: &handed.group_offsets,
        entry_names: &handed.entry_names,
        entry_offsets: &handed.entry_offsets,
        number: handed.number,
        entries_aware: handed.entries_aware,
        bits: handed.bits,
        hash: &handed.hash,
    };
    let mut area = Lent::<u8>::new("name", handed.area);
    let mut length = Lent::<u64>::new("length", 1);
    let mut place = count(length.lend()[0]);
    let number = raw::name(&tables, area.lend(), &mut place);
    length.lend()[0] = place as u64;
    if number != 0 {
        return Asked::refused(number, [area.untouched(), length.untouched()]);
    }
    let answer = Answer::Name(area.first(place).to_vec());
    Asked::answered(answer, [area.kept_past(place)])
}
