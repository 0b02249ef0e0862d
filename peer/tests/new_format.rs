//! Items in the new format against the answers in tests/items; the items are there too, or else
//! among those of the proved program.

use std::fs;
use std::path::{Path, PathBuf};

use peer::Format;

fn root() -> &'static Path {
    Path::new(env!("CARGO_MANIFEST_DIR"))
}

/// The paths of the stored answers.
fn answers() -> Vec<PathBuf> {
    let entries = fs::read_dir(root().join("tests/items")).unwrap();
    let paths = entries.map(|entry| entry.unwrap().path());
    paths
        .filter(|path| path.to_str().unwrap().ends_with(".expected"))
        .collect()
}

/// The item that is answered so.
fn item(answers: &Path) -> Vec<u8> {
    let beside = answers.with_extension("item");
    let proved = root().join("../crates/replay/data");
    let elsewhere = proved.join(beside.file_name().unwrap());
    let path = if beside.exists() { beside } else { elsewhere };
    fs::read(path).unwrap()
}

#[test]
fn items_answer_as_stored() {
    let paths = answers();
    assert_eq!(paths.len(), 9, "{paths:?}");
    for path in paths {
        let mut given = Vec::new();
        peer::replay(&item(&path), Format::New, &mut given).unwrap();
        let stored = fs::read(&path).unwrap();
        assert!(given == stored, "{path:?}");
    }
}
