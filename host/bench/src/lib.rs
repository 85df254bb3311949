//! What the benchmarks of the reference and of the proved code share.

pub mod area;

use std::hint::black_box;
use std::time::Duration;

/// Times each measurement is made; the fastest counts.
const ROUNDS: usize = 5;

/// Events in the queue during its measurement.
pub const QUEUED: u64 = 1_000;

/// Entries in the log during its measurement.
pub const ENTRIES: u64 = 1_024;

/// Makes a measurement several times, and takes the one with the least time.
pub fn fastest(mut measure: impl FnMut() -> (u64, Duration)) -> (u64, Duration) {
    let rounds = (0..ROUNDS).map(|_| measure());
    let least = rounds.min_by_key(|(_, time)| *time);
    least.expect("there is a round")
}

/// So many zeros that were written, so that they are memory and not the one page of zeros.
pub fn zeros(bytes: usize) -> Vec<u8> {
    let mut s = vec![1; bytes];
    black_box(&mut s).fill(0);
    s
}
