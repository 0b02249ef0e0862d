//! The worked items in examples/, and those of captures, against their stored answers.

use std::fs;
use std::path::{Path, PathBuf};

use peer::Format;

fn examples() -> Vec<PathBuf> {
    let root = Path::new(env!("CARGO_MANIFEST_DIR")).join("..");
    let folders =
        ["examples", "capture/examples"].map(|name| fs::read_dir(root.join(name)).unwrap());
    let paths = folders
        .into_iter()
        .flatten()
        .map(|entry| entry.unwrap().path());
    let is_item = |path: &PathBuf| {
        path.extension()
            .is_some_and(|extension| extension == "item")
    };
    paths.filter(is_item).collect()
}

#[test]
fn examples_answer_as_stored() {
    let paths = examples();
    assert!(paths.len() >= 9, "{paths:?}");
    for path in paths {
        let mut answers = Vec::new();
        peer::replay(&fs::read(&path).unwrap(), Format::Old, &mut answers).unwrap();
        let stored = fs::read_to_string(path.with_extension("expected")).unwrap();
        assert_eq!(String::from_utf8(answers).unwrap(), stored, "{path:?}");
    }
}

/// Nothing in them passes in silence: refusals are announced, and two have a slip on purpose.
#[test]
fn examples_announce_their_refusals() {
    for path in examples() {
        let stored = fs::read_to_string(path.with_extension("expected")).unwrap();
        let last = stored.lines().last().unwrap();
        assert!(last.contains(" 0 unannounced, 0 bad lines, "), "{path:?}");
        let slip = path.ends_with("differs.item") || path.ends_with("event.item");
        assert_eq!(last.ends_with(" 1 differ"), slip, "{path:?}");
        assert_eq!(last.ends_with(" 0 differ"), !slip, "{path:?}");
    }
}
