//! The runs on which the definitions are computed are the reference's.

use std::collections::BTreeSet;
use std::fs;
use std::path::Path;

use compare::short::{SHORT, short_runs};

fn held(name: &str) -> String {
    let folder = Path::new(env!("CARGO_MANIFEST_DIR")).join("../../crates/runs/specs");
    fs::read_to_string(folder.join(name)).expect("the file is there")
}

#[test]
fn the_recorded_runs_are_the_references() {
    assert!(held("Short.antt") == short_runs(), "host/record");
}

#[test]
fn every_run_has_a_theorem() {
    let theorems = held("Theorem.antt");
    let cited = |line: &str| {
        Some(
            line.strip_prefix("unfolding everything short.")?
                .to_string(),
        )
    };
    let cited: BTreeSet<String> = theorems.lines().filter_map(cited).collect();
    let names = SHORT.iter().map(|(name, _)| name.to_string());
    assert_eq!(cited, names.collect());
}
