//! The options of a group as they are in force, and where each comes from.

use text::tree::{Tree, TreeGroup};

/// An option by the crate's name, its value in words, and whether the group, the build or the default
/// gives it.
pub struct InForce {
    pub option: &'static str,
    pub value: String,
    pub from: &'static str,
}

/// All options of a group.
pub fn options_in_force(tree: &Tree, group: &TreeGroup) -> Vec<InForce> {
    let (own, build) = (&group.options, &tree.options);
    let tags: Vec<&str> = group.tags.iter().map(|tag| tag.text.as_str()).collect();
    let tags = (!tags.is_empty()).then(|| tags.join(" "));
    let recursive = "include_dependencies_recursively";
    vec![
        shared("min_size", own.min_size, build.min_size, "0"),
        shared("max_size", own.max_size, build.max_size, "none"),
        shared("min_module_size", own.min_module_size, build.min_module_size, "none"),
        shared("max_module_size", own.max_module_size, build.max_module_size, "none"),
        shared("min_share_count", own.min_share_count, build.min_share_count, "none"),
        shared(recursive, own.recursive, build.recursive, "true"),
        shared("tags", tags, None, "none"),
        shared("priority", group.priority, None, "0"),
        shared("entries_aware", group.entries_aware, None, "false"),
        shared("entries_aware_merge_threshold", group.threshold, None, "0"),
    ]
}

/// A group's option overrides the one of the build.
fn shared<T: ToString>(
    option: &'static str,
    own: Option<T>,
    build: Option<T>,
    default: &str,
) -> InForce {
    let (value, from) = match (own, build) {
        (Some(value), _) => (value.to_string(), "group"),
        (None, Some(value)) => (value.to_string(), "build"),
        (None, None) => (default.to_string(), "default"),
    };
    InForce { option, value, from }
}
