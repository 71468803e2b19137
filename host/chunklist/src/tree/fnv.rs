//! The host's hash of a full name: FNV-1a of 64 bits, of which a name takes eight base-36 digits.

use gentropi::limits::HASH_BYTES;

/// What the hash of no bytes is, and what it is multiplied with after each byte.
const OFFSET_BASIS: u64 = 0xcbf2_9ce4_8422_2325;
const PRIME: u64 = 0x0100_0000_01b3;

/// The digits of base 36.
const DIGITS: &[u8; 36] = b"0123456789abcdefghijklmnopqrstuvwxyz";

/// The last eight base-36 digits of the hash of some bytes, with zeros in front where it is short.
pub fn last_digits(bytes: &[u8]) -> [u8; HASH_BYTES] {
    let mut rest = fnv1a(bytes);
    let mut digits = [0; HASH_BYTES];
    for digit in digits.iter_mut().rev() {
        *digit = DIGITS[(rest % 36) as usize];
        rest /= 36;
    }
    digits
}

/// FNV-1a: each byte is put in by exclusive or, before the multiplication.
fn fnv1a(bytes: &[u8]) -> u64 {
    bytes.iter().fold(OFFSET_BASIS, |hash, byte| (hash ^ u64::from(*byte)).wrapping_mul(PRIME))
}

#[cfg(test)]
mod tests {
    use super::{fnv1a, last_digits};

    /// Of the published test vectors of the hash.
    #[test]
    fn the_published_vectors() {
        for (text, hash) in [
            ("", 0xcbf2_9ce4_8422_2325),
            ("a", 0xaf63_dc4c_8601_ec8c),
            ("b", 0xaf63_df4c_8601_f1a5),
            ("foo", 0xdcb2_7518_fed9_d577),
            ("foobar", 0x8594_4171_f739_67e8),
        ] {
            assert_eq!(fnv1a(text.as_bytes()), hash, "{text}");
        }
    }

    #[test]
    fn the_digits_are_those_of_the_hash() {
        for text in ["", "a", "foobar", "widgets~shop~admin"] {
            let digits = last_digits(text.as_bytes());
            let digits = std::str::from_utf8(&digits).expect("digits");
            let number = u64::from_str_radix(digits, 36).expect("a number of base 36");
            assert_eq!(number, fnv1a(text.as_bytes()) % 36u64.pow(8), "{text}");
        }
    }
}
