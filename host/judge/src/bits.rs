//! Entry bits: four words outside, the crate's `BitSet` inside.

use rolldown_utils::BitSet;

/// A set over so many entries, from four words.
pub fn bit_set(entries: u64, words: [u64; 4]) -> BitSet {
    let mut set = BitSet::new(u32::try_from(entries).expect("at most 256 entries"));
    for bit in (0..256).filter(|bit| words[bit / 64] >> (bit % 64) & 1 == 1) {
        set.set_bit(u32::try_from(bit).expect("below 256"));
    }
    set
}

/// Four words from a set.
pub fn words(set: &BitSet) -> [u64; 4] {
    let mut words = [0; 4];
    for bit in set.index_of_one() {
        words[bit as usize / 64] |= 1 << (bit % 64);
    }
    words
}
