//! Many seeds of a mode.

use std::collections::BTreeSet;
use std::hash::{DefaultHasher, Hash, Hasher};
use std::num::NonZero;
use std::ops::Range;
use std::sync::atomic::{AtomicU64, Ordering};
use std::thread;

use observe::{Coverage, Recording};
use stepwise::Stepwise;
use trace::{Options, Trace, replay};

use crate::{Mode, record, refused_between};

/// What one or more seeds have shown.
#[derive(Debug, Clone, Default)]
pub struct Outcome {
    /// Runs.
    pub seeds: u64,
    /// Events that the reference took.
    pub events: u64,
    /// Calls that were compared.
    pub calls: u64,
    /// The seeds at which a check failed.
    pub caught: BTreeSet<u64>,
    /// The checks that failed, by number.
    pub checks: BTreeSet<u64>,
    /// What was met.
    pub coverage: Coverage,
    /// What was not as it should be.
    pub differences: Vec<String>,
}

impl Outcome {
    /// Adds other seeds of the mode.
    pub fn add(&mut self, other: Outcome) {
        self.seeds += other.seeds;
        self.events += other.events;
        self.calls += other.calls;
        self.caught.extend(other.caught);
        self.checks.extend(other.checks);
        self.coverage.add(&other.coverage);
        self.differences.extend(other.differences);
    }
}

/// Runs a seed at the reference, and looks at its violations alone.
pub fn judge(mode: Mode, seed: u64) -> Outcome {
    judged(seed, &record(mode, seed))
}

fn judged(seed: u64, recording: &Recording) -> Outcome {
    let failed: BTreeSet<u64> = recording.violations.iter().map(|v| v.check).collect();
    Outcome {
        seeds: 1,
        events: recording.events,
        caught: failed.first().map(|_| seed).into_iter().collect(),
        checks: failed,
        coverage: recording.coverage.clone(),
        ..Outcome::default()
    }
}

/// Runs a seed twice at the reference, requires the same run, and replays its trace, with refused
/// calls in it, at the calls over the reference's modules.
pub fn compare(mode: Mode, seed: u64) -> Outcome {
    let first = digest(&record(mode, seed).trace);
    let recording = record(mode, seed);
    let mut outcome = judged(seed, &recording);
    if digest(&recording.trace) != first {
        let text = format!("{} {seed}: two runs differ", mode.name());
        outcome.differences.push(text);
    }
    let trace = refused_between(recording.trace);
    match replay(&trace, &mut Stepwise::default(), Options::default()) {
        Ok(made) => outcome.calls = made as u64,
        Err(difference) => {
            let text = format!("{} {seed}: {difference}", mode.name());
            outcome.differences.push(text);
        }
    }
    outcome
}

/// A trace is long; two are told apart by their hashes.
fn digest(trace: &Trace) -> u64 {
    let mut hasher = DefaultHasher::new();
    trace.hash(&mut hasher);
    hasher.finish()
}

/// Does one of the above for each seed, on every processor.
pub fn each(seeds: Range<u64>, work: impl Fn(u64) -> Outcome + Sync) -> Outcome {
    let next = AtomicU64::new(seeds.start);
    let worker = || {
        let mut outcome = Outcome::default();
        loop {
            let seed = next.fetch_add(1, Ordering::Relaxed);
            if seed >= seeds.end {
                return outcome;
            }
            outcome.add(work(seed));
        }
    };
    let workers = thread::available_parallelism().map_or(1, NonZero::get);
    thread::scope(|scope| {
        let handles: Vec<_> = (0..workers).map(|_| scope.spawn(worker)).collect();
        let mut outcome = Outcome::default();
        for handle in handles {
            outcome.add(handle.join().expect("a worker finishes"));
        }
        outcome.differences.sort();
        outcome
    })
}
