//! The recorded answers in the repository are the reference's.

use std::fs;
use std::path::Path;

#[test]
fn the_recorded_answers_are_the_references() {
    let crates = Path::new(env!("CARGO_MANIFEST_DIR")).join("../../crates");
    for file in vectors::all() {
        let folder = crates.join(file.owner).join("data");
        let held = fs::read(folder.join(file.name)).unwrap_or_default();
        assert!(held == file.bytes(), "{}: host/record", file.name);
    }
}
