//! Recorded runs of every mode, made at the library: every answer is the reference's.

#![cfg(feature = "linked")]

use std::ops::Range;

use compare::{Mode, record};
use library::Library;
use port::area_length;
use trace::{Call, Options, Trace, replay, with_refusals};

/// Refused calls that are put into a trace, about.
const REFUSALS: usize = 600;

/// Bytes of a long area: a call looks through all of it, so that of the reads there one in sixteen is made.
const LONG: u64 = 1 << 18;

/// Makes the runs of these seeds. Answers how many calls were made.
fn agree(mode: Mode, seeds: Range<u64>) -> usize {
    let mut calls = 0;
    for seed in seeds {
        let trace = record(mode, seed).trace;
        let every = (trace.exchanges.len() / REFUSALS).max(2);
        let trace = with_refusals(trace, every);
        let reads = if area_bytes(&trace) > LONG { 16 } else { 1 };
        match replay(&trace, &mut Library, Options { reads }) {
            Ok(made) => calls += made,
            Err(difference) => panic!("{} {seed}: {difference}", mode.name()),
        }
    }
    println!("{}: {calls} calls", mode.name());
    calls
}

fn area_bytes(trace: &Trace) -> u64 {
    match &trace.exchanges[0].call {
        Call::Start {
            settings, limits, ..
        } => area_length(settings, limits),
        _ => panic!("a run begins with a start"),
    }
}

#[test]
fn raft() {
    assert!(agree(Mode::Raft, 0..12) > 100_000);
}

#[test]
fn hostile() {
    assert!(agree(Mode::Hostile, 0..100) > 100_000);
}

#[test]
fn mistakes() {
    for mode in Mode::MISTAKES {
        assert!(agree(mode, 0..8) > 100_000);
    }
}
