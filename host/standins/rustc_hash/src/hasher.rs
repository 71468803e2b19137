//! A multiply-and-rotate hash.

use std::hash::{BuildHasherDefault, Hasher};

/// The odd factor that each word is mixed with.
const FACTOR: u64 = 0xf135_7aea_2e62_a9c5;

/// How far the result is rotated, so that the well mixed high bits choose the bucket.
const ROTATION: u32 = 26;

/// The hash of one key.
#[derive(Default, Clone)]
pub struct FxHasher(u64);

/// Makes a fresh hasher for each key.
pub type FxBuildHasher = BuildHasherDefault<FxHasher>;

impl FxHasher {
    #[inline]
    fn add(&mut self, word: u64) {
        self.0 = self.0.wrapping_add(word).wrapping_mul(FACTOR);
    }
}

impl Hasher for FxHasher {
    #[inline]
    fn finish(&self) -> u64 {
        self.0.rotate_left(ROTATION)
    }

    /// Words of eight bytes, then one of four, then what is left byte by byte.
    #[inline]
    fn write(&mut self, bytes: &[u8]) {
        let (words, rest) = bytes.as_chunks();
        for word in words {
            self.add(u64::from_le_bytes(*word));
        }
        let (half, rest) = rest.as_chunks();
        for word in half {
            self.add(u64::from(u32::from_le_bytes(*word)));
        }
        for &byte in rest {
            self.add(u64::from(byte));
        }
    }

    #[inline]
    fn write_u8(&mut self, word: u8) {
        self.add(u64::from(word));
    }

    #[inline]
    fn write_u32(&mut self, word: u32) {
        self.add(u64::from(word));
    }

    #[inline]
    fn write_u64(&mut self, word: u64) {
        self.add(word);
    }

    #[inline]
    fn write_usize(&mut self, word: usize) {
        self.add(word as u64);
    }
}
