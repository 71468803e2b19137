//! The memory that a call takes for what its text may ask for: areas, and tables made longer.

use std::fs;

use text::{Question, Table, tables};

/// The most that a text may ask for, in bytes. The largest build that is accepted needs 4.3 GB.
const MOST: usize = 8 << 30;

/// From so many bytes on it is looked whether there is as much memory.
const LARGE: usize = 64 << 20;

/// How many bytes the areas and the lengthened tables of a call take.
#[derive(Debug, Clone, Copy, PartialEq, Eq)]
pub struct Room(usize);

impl Room {
    /// That of a question.
    pub fn of(question: &Question) -> Self {
        let areas = match question {
            Question::Sim(_) | Question::Cut(_) | Question::Filter(_) => 0,
            Question::Capture(capture) => total(tables::areas_of_capture(capture), [1, 4]),
            Question::Merge(merge) => total(tables::areas_of_merge(merge), [4, 8, 32]),
            Question::Name(name) => total(tables::area_of_name(name), [1]),
            Question::Chunks(chunks) => {
                total(tables::areas_of_chunks(chunks), [4, 4, 4, 4, 4, 8, 8, 1, 4])
            }
        };
        Self(lengthened(question).saturating_add(areas))
    }

    /// Whether it is so much that the system may not have it.
    pub fn is_large(self) -> bool {
        self.0 >= LARGE
    }

    /// Whether it may be asked for and can be had; the error is a message.
    pub fn check(self) -> Result<(), String> {
        let Self(bytes) = self;
        if bytes > MOST {
            return Err(format!(
                "its areas and lengthened tables take {bytes} bytes, above {MOST}"
            ));
        }
        let free = if self.is_large() { free_memory() } else { None };
        // Areas and tables are made by code that ends the program where memory can't be had.
        let refused = Vec::<u8>::new().try_reserve_exact(bytes).is_err();
        if refused || free.is_some_and(|free| free < bytes) {
            let message = "its areas and lengthened tables take";
            return Err(format!("{message} {bytes} bytes, above the memory that there is"));
        }
        Ok(())
    }
}

/// The bytes of areas of so many items each, of these widths.
fn total<const A: usize>(lengths: [usize; A], widths: [usize; A]) -> usize {
    let bytes = lengths.iter().zip(widths).map(|(length, width)| length.saturating_mul(width));
    bytes.fold(0, usize::saturating_add)
}

/// The bytes of tables whose length is forced, at most.
fn lengthened(question: &Question) -> usize {
    let forced = question.damage().map_or(&[][..], |damage| &damage.lengths);
    let bytes = |(table, length): &(Table, usize)| match table {
        // All nine tables, as they are read and as they are handed over.
        Table::Groups => length.saturating_mul(256),
        _ => length.saturating_mul(8),
    };
    forced.iter().map(bytes).fold(0, usize::saturating_add)
}

/// How many bytes the system could give, where it says so.
fn free_memory() -> Option<usize> {
    let told = fs::read_to_string("/proc/meminfo").ok()?;
    let line = told.lines().find_map(|line| line.strip_prefix("MemAvailable:"))?;
    let kilobytes: usize = line.trim().strip_suffix("kB")?.trim().parse().ok()?;
    kilobytes.checked_mul(1_024)
}

#[cfg(test)]
mod tests {
    use text::read_cases;

    use super::{MOST, Room, free_memory};

    /// The room of a text's only case.
    fn room(text: &str) -> Room {
        Room::of(&read_cases(text).expect("the case can be read")[0].question)
    }

    #[test]
    fn areas_are_counted_by_their_widths() {
        assert_eq!(room("with areas 5 7\ncapture a 0 0 0 0\n"), Room(5 + 4 * 7));
        assert_eq!(room("with areas 3 5 7\nmerge a 0 0 -\n"), Room(4 * 3 + 8 * 5 + 32 * 7));
        let build =
            "chunks a 0 0 0 0 0 0\no - - - - - -\nareas 1 2 3 4\nrecords 5 6 7 8 9 10\nend\n";
        assert_eq!(room(build), Room(4 * (1 + 2 + 5 + 6 + 7) + 8 * (8 + 9) + 10 + 4 * 4));
        assert_eq!(room("with areas 5\nname a 0 0 0 0 0 0 0 0 .\n"), Room(5));
        assert_eq!(room("sim a . .\n"), Room(0));
    }

    #[test]
    fn lengthened_tables_are_counted() {
        let cut =
            "with len sizes 100\nwith len offsets 10\ncut a 0 0000000000000000 0000000000000000\n";
        assert_eq!(room(cut), Room(8 * 110));
        let build = "chunks a 0 0 0 0 0 0\no - - - - - -\nlen groups 2\nareas 0 0 0 0\nend\n";
        assert_eq!(room(build), Room(512));
    }

    #[test]
    fn what_can_not_be_had_is_told() {
        assert_eq!(Room(0).check(), Ok(()));
        assert_eq!(Room(1 << 20).check(), Ok(()));
        let message = "its areas and lengthened tables take 8589934593 bytes, above 8589934592";
        assert_eq!(Room(MOST + 1).check(), Err(message.into()));
    }

    #[test]
    fn the_system_tells_its_free_memory() {
        let told = std::path::Path::new("/proc/meminfo").exists();
        assert_eq!(free_memory().is_some(), told);
    }
}
