//! Patterns over ids.

/// A pattern over the bytes of an id.
#[derive(Debug, Clone, PartialEq, Eq)]
pub struct Pattern {
    /// As it was written.
    pub text: String,
    parts: Vec<Part>,
}

/// What a part of a pattern matches.
#[derive(Debug, Clone, Copy, PartialEq, Eq)]
enum Part {
    /// This byte.
    Byte(u8),
    /// `?`: one byte but `/`.
    One,
    /// `*`: any bytes but `/`.
    InFolder,
    /// `**`: any bytes.
    Any,
    /// `**/` at the beginning of a segment: any folders, or none.
    Folders,
    /// `/**` at the end: a slash and any bytes, or nothing.
    Below,
}

impl Pattern {
    /// A pattern; every text is one.
    pub fn new(text: &str) -> Self {
        let mut parts = Vec::new();
        let mut rest = text.as_bytes();
        while !rest.is_empty() {
            let at_segment = matches!(parts.last(), None | Some(Part::Byte(b'/') | Part::Folders));
            let (part, length) = first_part(rest, at_segment);
            parts.push(part);
            rest = &rest[length..];
        }
        Self { text: text.into(), parts }
    }

    /// Whether it matches a whole id.
    pub fn matches(&self, id: &[u8]) -> bool {
        // Whether the parts so far match the first bytes, for each count of bytes.
        let mut reached = vec![false; id.len() + 1];
        reached[0] = true;
        for part in &self.parts {
            reached = part.step(&reached, id);
        }
        reached[id.len()]
    }
}

/// The first part of a rest of a pattern, and its length.
fn first_part(rest: &[u8], at_segment: bool) -> (Part, usize) {
    match rest {
        b"/**" => (Part::Below, 3),
        [b'*', b'*', b'/', ..] if at_segment => (Part::Folders, 3),
        [b'*', b'*', ..] => (Part::Any, 2),
        [b'*', ..] => (Part::InFolder, 1),
        [b'?', ..] => (Part::One, 1),
        [byte, ..] => (Part::Byte(*byte), 1),
        [] => (Part::Any, 0),
    }
}

impl Part {
    /// The counts of bytes that are matched with this part too.
    fn step(self, reached: &[bool], id: &[u8]) -> Vec<bool> {
        let mut next = vec![false; reached.len()];
        // Whether some count below the present one had been matched before this part, and whether
        // a slash followed it there.
        let (mut earlier, mut opened) = (false, false);
        for end in 0..reached.len() {
            let last = end.checked_sub(1).map(|at| id[at]);
            let before = last.is_some() && reached[end - 1];
            opened |= before && last == Some(b'/');
            next[end] = match self {
                Self::Byte(byte) => before && last == Some(byte),
                Self::One => before && last != Some(b'/'),
                Self::InFolder => reached[end] || last.is_some_and(|b| b != b'/') && next[end - 1],
                Self::Any => reached[end] || earlier,
                Self::Folders => reached[end] || earlier && last == Some(b'/'),
                Self::Below => reached[end] || opened,
            };
            earlier |= reached[end];
        }
        next
    }
}

#[cfg(test)]
mod tests {
    use super::Pattern;

    fn matches(pattern: &str, good: &[&str], bad: &[&str]) {
        let pattern = Pattern::new(pattern);
        for id in good {
            assert!(pattern.matches(id.as_bytes()), "{} and {id}", pattern.text);
        }
        for id in bad {
            assert!(!pattern.matches(id.as_bytes()), "{} and {id}", pattern.text);
        }
    }

    #[test]
    fn a_star_stays_in_its_folder() {
        matches("lib/*", &["lib/a", "lib/"], &["lib", "lib/a/b", "xlib/a"]);
        matches("*.css", &["a.css", ".css"], &["a/b.css", "a.css.js"]);
        matches("a*b*c", &["abc", "axxbyc", "abcbc"], &["ab/c", "acb"]);
    }

    #[test]
    fn two_stars_go_anywhere() {
        matches("**/theme/**", &["theme/a", "x/theme/a", "x/y/theme/a/b", "theme"], &["xtheme/a"]);
        matches("**/theme/**", &["x/theme"], &["theme2/a", "x/themes"]);
        matches("a/**/b", &["a/b", "a/x/b", "a/x/y/b"], &["ab", "a/xb", "a/x/yb/c"]);
        matches("**", &["", "a", "a/b"], &[]);
        matches("lib/**", &["lib", "lib/a", "lib/a/b", "lib/"], &["library", "x/lib/a"]);
        matches("a**b", &["ab", "a/x/b"], &["a/x"]);
        matches("**/**/a", &["a", "x/a", "x/y/a"], &["xa"]);
    }

    #[test]
    fn a_question_mark_is_one_byte() {
        matches("v?.js", &["v1.js"], &["v.js", "v12.js", "v/.js"]);
    }

    #[test]
    fn other_bytes_are_themselves() {
        matches("a[b].js", &["a[b].js"], &["ab.js"]);
        matches("", &[""], &["a"]);
    }
}
