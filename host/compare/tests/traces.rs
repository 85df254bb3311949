//! The traces that the crate `traces` replays are the reference's, and have every call.

use std::collections::BTreeSet;
use std::fs;
use std::path::Path;

use compare::RECORDED;
use stepwise::Stepwise;
use trace::{Options, replay};

#[test]
fn the_recorded_traces_are_the_references() {
    let folder = Path::new(env!("CARGO_MANIFEST_DIR")).join("../../crates/traces/data");
    for recorded in RECORDED {
        let held = fs::read(folder.join(recorded.file())).unwrap_or_default();
        let made = recorded.trace().to_bytes();
        assert!(held == made, "{}: host/record", recorded.file());
    }
    let files = fs::read_dir(folder).expect("the folder is there").count();
    assert_eq!(files, RECORDED.len());
}

#[test]
fn the_recorded_traces_agree() {
    for recorded in RECORDED {
        let made = replay(
            &recorded.trace(),
            &mut Stepwise::default(),
            Options::default(),
        );
        assert!(made.is_ok(), "{}", recorded.file());
    }
}

#[test]
fn every_call_is_recorded_accepted_and_refused() {
    let exchanges = RECORDED.map(|recorded| recorded.trace().exchanges);
    let met: BTreeSet<(u64, u64)> = exchanges
        .iter()
        .flatten()
        .map(|exchange| (exchange.answer.numbers.refusal(), exchange.call.number()))
        .collect();
    let calls = |refused: bool| -> BTreeSet<u64> {
        let met = met.iter().filter(|(refusal, _)| (*refusal != 0) == refused);
        met.map(|(_, call)| *call).collect()
    };
    assert_eq!(calls(false), (1..=34).collect());
    assert_eq!(calls(true), (1..=23).chain([25, 28, 33]).collect());
    let refusals: BTreeSet<u64> = met.iter().map(|(refusal, _)| *refusal).collect();
    assert_eq!(refusals, BTreeSet::from([0, 1, 2, 3, 4, 6, 7, 8, 9, 10]));
}
