//! The judge at the proved calls, where nothing of the reference is at hand.
#![cfg(feature = "linked")]

use judge::{Plan, campaign};
use library::Library;
use node::{Consensus, Correct, Raft, TermNotSaved};

/// The seeds of a small campaign at which a check failed.
fn failed<N: Consensus>(seeds: u64) -> Vec<u64> {
    let verdicts = campaign::<N, Library>(&Plan::default(), 0..seeds, |_| ());
    let verdicts = verdicts.expect("the plan is accepted");
    let failed = verdicts.iter().filter(|verdict| !verdict.passed());
    failed.map(|verdict| verdict.seed).collect()
}

#[test]
fn the_correct_node_passes() {
    assert_eq!(failed::<Raft<Correct>>(8), []);
}

#[test]
fn a_mistake_is_caught() {
    assert!(!failed::<Raft<TermNotSaved>>(16).is_empty());
}
