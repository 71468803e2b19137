//! Areas that are lent with a pattern in them, so that it shows where a call wrote.

/// What an area can be made of.
pub trait Pattern: Copy + PartialEq + Default {
    /// What an area holds at a place before it is lent: not zero, not the same everywhere, and no
    /// number that a call has reason to write there.
    fn at(place: usize) -> Self;

    /// An item as a word.
    fn word(self) -> u64;
}

impl Pattern for u8 {
    fn at(place: usize) -> Self {
        0xa0 | (place % 16) as Self
    }

    fn word(self) -> u64 {
        self.into()
    }
}

impl Pattern for u32 {
    fn at(place: usize) -> Self {
        0xa5a5_0000 | (place % 0x1_0000) as Self
    }

    fn word(self) -> u64 {
        self.into()
    }
}

impl Pattern for u64 {
    fn at(place: usize) -> Self {
        0xa5a5_a5a5_0000_0000 | (place % 0x1_0000_0000) as Self
    }

    fn word(self) -> u64 {
        self
    }
}

impl Pattern for f64 {
    fn at(place: usize) -> Self {
        Self::from_bits(u64::at(place))
    }

    fn word(self) -> u64 {
        self.to_bits()
    }
}

/// How many items are compared before it is asked whether one differs.
const BLOCK: usize = 4_096;

/// An area to lend, filled with the pattern.
#[derive(Debug, Clone)]
pub struct Lent<T> {
    name: &'static str,
    items: Vec<T>,
}

impl<T: Pattern> Lent<T> {
    /// An area of so many items. The name is that in messages.
    pub fn new(name: &'static str, length: usize) -> Self {
        Self { name, items: (0..length).map(T::at).collect() }
    }

    /// The area, to hand over.
    pub fn lend(&mut self) -> &mut [T] {
        &mut self.items
    }

    /// The first items, as many as there are up to `end`.
    pub fn first(&self, end: usize) -> &[T] {
        &self.items[..end.min(self.items.len())]
    }

    /// After a refusal: what is wrong if an item was written.
    pub fn untouched(&self) -> Option<String> {
        let place = self.written_from(0)?;
        Some(format!("{}[{place}] was written by a refused call", self.name))
    }

    /// After an acceptance with `end` items: what is wrong if they have no room, or if an item
    /// past them was written.
    pub fn kept_past(&self, end: usize) -> Option<String> {
        let length = self.items.len();
        if length < end {
            return Some(format!("{} was accepted with {length} items of {end}", self.name));
        }
        let place = self.written_from(end)?;
        Some(format!("{}[{place}] was written past the end at {end}", self.name))
    }

    /// After an acceptance, for scratch: what is wrong if an item isn't zero.
    pub fn zeros(&self) -> Option<String> {
        let place = self.nonzero_below(self.items.len())?;
        Some(format!("{}[{place}] didn't end as zero", self.name))
    }

    /// The first place that holds anything but zero below `zeros`, or but the pattern from there on.
    pub fn unlike(&self, zeros: usize) -> Option<usize> {
        let zeros = zeros.min(self.items.len());
        self.nonzero_below(zeros).or_else(|| self.written_from(zeros))
    }

    /// How many items there are.
    pub fn length(&self) -> usize {
        self.items.len()
    }

    /// An item as a word; if it still holds the pattern, that of words.
    pub fn word(&self, place: usize) -> u64 {
        let item = self.items[place];
        if item == T::at(place) { u64::at(place) } else { item.word() }
    }

    /// The first place below `end` that isn't zero. Scratch is long, so it is looked at in blocks.
    fn nonzero_below(&self, end: usize) -> Option<usize> {
        let is_zero = |item: &T| *item == T::default();
        let all_zero = |block: &[T]| block.iter().fold(true, |all, item| all & is_zero(item));
        let mut blocks = self.items[..end].chunks(BLOCK).enumerate();
        let (number, block) = blocks.find(|(_, block)| !all_zero(block))?;
        let place = block.iter().position(|item| !is_zero(item))?;
        Some(number * BLOCK + place)
    }

    /// The first place, not below `from`, that no longer holds the pattern.
    fn written_from(&self, from: usize) -> Option<usize> {
        (from..self.items.len()).find(|place| self.items[*place] != T::at(*place))
    }
}

#[cfg(test)]
mod tests {
    use super::Lent;

    /// An area of four words, with something written at a place.
    fn written(place: usize) -> Lent<u32> {
        let mut area = Lent::new("numbers", 4);
        area.lend()[place] = 0;
        area
    }

    #[test]
    fn an_area_is_untouched_until_it_is_written() {
        assert_eq!(Lent::<u8>::new("marks", 300).untouched(), None);
        let message = "numbers[2] was written by a refused call";
        assert_eq!(written(2).untouched().as_deref(), Some(message));
    }

    #[test]
    fn writes_below_the_end_are_no_fault() {
        assert_eq!(written(2).kept_past(3), None);
        let message = "numbers[3] was written past the end at 3";
        assert_eq!(written(3).kept_past(3).as_deref(), Some(message));
    }

    #[test]
    fn an_area_without_room_is_told() {
        let message = "numbers was accepted with 4 items of 5";
        assert_eq!(written(0).kept_past(5).as_deref(), Some(message));
        assert_eq!(written(0).first(5).len(), 4);
    }

    #[test]
    fn scratch_has_to_end_as_zeros() {
        let mut area = Lent::<u64>::new("scratch", 3);
        assert_eq!(area.zeros().as_deref(), Some("scratch[0] didn't end as zero"));
        area.lend().fill(0);
        assert_eq!(area.zeros(), None);
        area.lend()[2] = 1;
        assert_eq!(area.zeros().as_deref(), Some("scratch[2] didn't end as zero"));
    }

    #[test]
    fn scratch_is_compared_up_to_its_end() {
        let mut area = Lent::<u32>::new("scratch", 10_000);
        assert_eq!(area.unlike(0), None);
        area.lend()[..9_000].fill(0);
        assert_eq!(area.unlike(9_000), None);
        assert_eq!(area.unlike(9_001), Some(9_000));
        assert_eq!(area.unlike(8_999), Some(8_999));
        area.lend()[5_000] = 1;
        assert_eq!(area.unlike(9_000), Some(5_000));
    }
}
