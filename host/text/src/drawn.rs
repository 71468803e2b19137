//! Numbers that look drawn, the same in each run.

/// The number at a place of a stream.
pub fn drawn(stream: u32, place: u32) -> u32 {
    (word(stream, place) >> 32) as u32
}

/// The same with 64 bits.
pub fn word(stream: u32, place: u32) -> u64 {
    let mut word = (u64::from(stream) << 32 | u64::from(place)).wrapping_add(0x9e37_79b9_7f4a_7c15);
    for _ in 0..2 {
        word = (word ^ (word >> 30)).wrapping_mul(0xbf58_476d_1ce4_e5b9);
        word = (word ^ (word >> 27)).wrapping_mul(0x94d0_49bb_1331_11eb);
    }
    word ^ (word >> 31)
}

/// The numbers below a count, each once, in an order of the stream's own.
pub fn shuffled(stream: u32, count: u32) -> Vec<u32> {
    let mut numbers: Vec<u32> = (0..count).collect();
    numbers.sort_by_key(|number| word(stream, *number));
    numbers
}
