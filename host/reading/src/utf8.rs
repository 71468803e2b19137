//! UTF-8 by the syntax of RFC 3629, written out as a table of byte ranges.

/// The bytes that a place of a character may have, both ends included.
type Range = (u8, u8);

/// The places after the first.
const TAIL: Range = (0x80, 0xbf);

/// The forms of a character, one range for each of its bytes.
const FORMS: [&[Range]; 9] = [
    &[(0x00, 0x7f)],
    &[(0xc2, 0xdf), TAIL],
    &[(0xe0, 0xe0), (0xa0, 0xbf), TAIL],
    &[(0xe1, 0xec), TAIL, TAIL],
    &[(0xed, 0xed), (0x80, 0x9f), TAIL],
    &[(0xee, 0xef), TAIL, TAIL],
    &[(0xf0, 0xf0), (0x90, 0xbf), TAIL, TAIL],
    &[(0xf1, 0xf3), TAIL, TAIL, TAIL],
    &[(0xf4, 0xf4), (0x80, 0x8f), TAIL, TAIL],
];

/// Whether the bytes are characters one after another, with nothing left over.
pub fn is_utf8(mut bytes: &[u8]) -> bool {
    while !bytes.is_empty() {
        let Some(form) = FORMS.iter().find(|form| begins_with(bytes, form)) else {
            return false;
        };
        bytes = &bytes[form.len()..];
    }
    true
}

/// Whether a character of this form stands at the front.
fn begins_with(bytes: &[u8], form: &[Range]) -> bool {
    let fits = |(byte, (least, most)): (&u8, &Range)| least <= byte && byte <= most;
    bytes.len() >= form.len() && bytes.iter().zip(form).all(fits)
}

#[cfg(test)]
mod tests {
    use super::is_utf8;

    /// The bytes at which a range of the table begins or ends, and their neighbours.
    const EDGES: [u8; 24] = [
        0x00, 0x7f, 0x80, 0x8f, 0x90, 0x9f, 0xa0, 0xbf, 0xc0, 0xc1, 0xc2, 0xdf, 0xe0, 0xe1, 0xec,
        0xed, 0xee, 0xef, 0xf0, 0xf1, 0xf3, 0xf4, 0xf5, 0xff,
    ];

    #[test]
    fn the_table_agrees_with_the_standard_library() {
        for first in 0..=u8::MAX {
            assert_eq!(is_utf8(&[first]), str::from_utf8(&[first]).is_ok(), "{first:x}");
            for second in 0..=u8::MAX {
                let pair = [first, second];
                assert_eq!(is_utf8(&pair), str::from_utf8(&pair).is_ok(), "{pair:x?}");
                for third in EDGES {
                    let three = [first, second, third];
                    assert_eq!(is_utf8(&three), str::from_utf8(&three).is_ok(), "{three:x?}");
                }
            }
        }
    }

    #[test]
    fn characters_of_four_bytes_agree_too() {
        for first in [0xef, 0xf0, 0xf1, 0xf3, 0xf4, 0xf5] {
            for second in 0..=u8::MAX {
                for third in EDGES {
                    let all = EDGES.map(|fourth| [first, second, third, fourth]);
                    for four in all {
                        assert_eq!(is_utf8(&four), str::from_utf8(&four).is_ok(), "{four:x?}");
                    }
                }
            }
        }
    }
}
