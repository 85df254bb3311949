//! A small campaign. The whole one is a command.

use compare::Mode;
use compare::campaign::{Outcome, compare, each, judge};

/// Seeds within which a mistake must be caught.
const WITHIN: u64 = 200;

fn small_campaign(mode: Mode, seeds: u64) -> Outcome {
    let outcome = each(0..seeds, |seed| compare(mode, seed));
    assert_eq!(outcome.differences, [""; 0], "{}", mode.name());
    outcome
}

#[test]
fn traces_agree_and_cover_everything() {
    let mut all = small_campaign(Mode::Hostile, 150);
    for mode in Mode::ALL {
        all.add(small_campaign(mode, 8));
    }
    assert_eq!(all.coverage.missing(), [""; 0]);
}

#[test]
fn the_correct_node_violates_no_check() {
    let outcome = each(0..120, |seed| judge(Mode::Raft, seed));
    assert!(outcome.caught.is_empty(), "{:?}", outcome.caught);
}

#[test]
fn every_mistake_is_caught() {
    for mode in Mode::MISTAKES {
        let caught = (0..WITHIN).find(|seed| !judge(mode, *seed).caught.is_empty());
        assert!(caught.is_some(), "{} is not caught", mode.name());
    }
}
