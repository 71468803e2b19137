//! Names of groups: fixed ones, and ones that are made from an id.

/// How a group names the modules that it matches.
#[derive(Debug, Clone, PartialEq, Eq)]
pub struct NameRule {
    /// As it was written.
    pub text: String,
    parts: Vec<Part>,
}

#[derive(Debug, Clone, PartialEq, Eq)]
enum Part {
    Text(String),
    /// `{2}`, a segment of the id from 1 on; `{-1}`, one from its end.
    Segment(i32),
}

impl NameRule {
    /// A name that is the same for each module.
    pub fn fixed(text: &str) -> Self {
        Self { text: text.into(), parts: vec![Part::Text(text.into())] }
    }

    /// A name with segments in braces, unless the braces hold anything else.
    pub fn new(text: &str) -> Option<Self> {
        let mut parts = Vec::new();
        let mut rest = text;
        while let Some((before, after)) = rest.split_once('{') {
            let (inside, behind) = after.split_once('}')?;
            let segment = inside.parse::<i32>().ok().filter(|segment| *segment != 0)?;
            parts.extend([Part::Text(closed(before)?), Part::Segment(segment)]);
            rest = behind;
        }
        parts.push(Part::Text(closed(rest)?));
        Some(Self { text: text.into(), parts })
    }

    /// The name of a module, or `None` if its id has no such segment.
    pub fn name(&self, id: &str) -> Option<String> {
        let segments: Vec<&str> = id.split('/').collect();
        let mut name = String::new();
        for part in &self.parts {
            name.push_str(match part {
                Part::Text(text) => text,
                Part::Segment(segment) => segments.get(place(*segment, segments.len())?)?,
            });
        }
        Some(name)
    }
}

/// Where a segment stands among so many.
fn place(segment: i32, count: usize) -> Option<usize> {
    let distance = segment.unsigned_abs() as usize;
    if segment > 0 { Some(distance - 1) } else { count.checked_sub(distance) }
}

/// A text without a closing brace.
fn closed(text: &str) -> Option<String> {
    (!text.contains('}')).then(|| text.to_string())
}

#[cfg(test)]
mod tests {
    use super::NameRule;

    fn name(rule: &str, id: &str) -> Option<String> {
        NameRule::new(rule).expect("a rule").name(id)
    }

    #[test]
    fn a_segment_is_counted_from_either_end() {
        assert_eq!(name("{1}", "lib/a/b.js").as_deref(), Some("lib"));
        assert_eq!(name("x-{2}-{-1}", "lib/a/b.js").as_deref(), Some("x-a-b.js"));
        assert_eq!(name("{-3}", "lib/a/b.js").as_deref(), Some("lib"));
        assert_eq!(name("plain", "lib/a").as_deref(), Some("plain"));
    }

    #[test]
    fn a_missing_segment_gives_no_name() {
        assert_eq!(name("{4}", "lib/a/b.js"), None);
        assert_eq!(name("{-4}", "lib/a/b.js"), None);
    }

    #[test]
    fn braces_hold_a_number() {
        for bad in ["{", "{}", "{0}", "{x}", "a}", "{1", "{{1}}", "{1}}"] {
            assert_eq!(NameRule::new(bad), None, "{bad}");
        }
    }
}
