//! Why a chunk is too large: the library's mark in words, with the limits in force.

use gentropi::Mark;
use text::tree::{Tree, TreeGroup};

/// The words for the mark of a group's chunk; none for a chunk that is within its maximum.
pub fn too_large(tree: &Tree, group: &TreeGroup, mark: u8) -> Option<String> {
    let (own, build) = (&group.options, &tree.options);
    let reason = match Mark::numbered(mark)? {
        Mark::Within => return None,
        Mark::OneModule => "it has one module".into(),
        Mark::NoCutAllowed => {
            let min_size = own.min_size.or(build.min_size).unwrap_or(0.0);
            format!("no cut of its modules leaves min_size {min_size} on both sides")
        }
    };
    // A chunk without a maximum is never marked; infinity would say that one was.
    let max_size = own.max_size.or(build.max_size).unwrap_or(f64::INFINITY);
    Some(format!("above its maximum of {max_size}: {reason}"))
}

#[cfg(test)]
mod tests {
    use text::tree::read_tree;

    use super::too_large;

    /// The words for each mark of a tree's only group, with these options of the build and of the group.
    fn words(build: &str, group: &str) -> [Option<String>; 4] {
        let tree = read_tree(&format!("options {build}\ngroup g {group}\n")).expect("a tree");
        [0, 1, 2, 3].map(|mark| too_large(&tree, &tree.groups[0], mark))
    }

    #[test]
    fn the_limits_are_those_in_force() {
        let [within, one, none, other] = words("max_size 9 min_size 2", "max_size 1.5k min_size 6");
        assert_eq!((within, other), (None, None));
        assert_eq!(one.as_deref(), Some("above its maximum of 1536: it has one module"));
        let expected =
            "above its maximum of 1536: no cut of its modules leaves min_size 6 on both sides";
        assert_eq!(none.as_deref(), Some(expected));
        let [_, _, of_build, _] = words("max_size 9 min_size 2", "");
        let expected =
            "above its maximum of 9: no cut of its modules leaves min_size 2 on both sides";
        assert_eq!(of_build.as_deref(), Some(expected));
        let [_, _, mixed, _] = words("max_size 0.5", "min_size 1");
        let expected =
            "above its maximum of 0.5: no cut of its modules leaves min_size 1 on both sides";
        assert_eq!(mixed.as_deref(), Some(expected));
    }
}
