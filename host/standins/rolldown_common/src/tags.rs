//! Tags of modules, numbered 0 to 63.

/// A set of tags.
#[derive(Debug, Clone, Copy, Default, PartialEq, Eq)]
pub struct ModuleTagBitSet(pub u64);

impl ModuleTagBitSet {
    /// Whether every tag of `required` is here.
    #[inline]
    pub fn contains_all(&self, required: &Self) -> bool {
        required.0 & !self.0 == 0
    }
}

/// The name of a tag.
pub fn tag_name(tag: u32) -> String {
    format!("tag{tag}")
}

/// Knows the numbers of tag names.
#[derive(Debug, Default)]
pub struct ModuleTagRegistry;

impl ModuleTagRegistry {
    /// The set of the named tags. Only names made by [`tag_name`] are handed in.
    pub fn compile_tags_to_bit_set(&self, tags: &[String]) -> ModuleTagBitSet {
        ModuleTagBitSet(tags.iter().fold(0, |all, name| all | 1 << tag_number(name)))
    }
}

/// The number of a tag, from its name.
fn tag_number(name: &str) -> u32 {
    name.strip_prefix("tag").and_then(|digits| digits.parse().ok()).expect("a known tag")
}
