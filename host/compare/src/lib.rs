//! Campaigns: many seeds, compared call by call.
//!
//! [`Mode`] is which node runs; [`record`] makes the run of a mode and a seed at the reference;
//! [`compared`] is that run as calls to be made at a port; [`campaign`] does it for many seeds and
//! compares. [`reference`] judges by the judge's plan.

pub mod campaign;
mod hostile;
pub mod plan;
mod raft;
pub mod reference;
mod scripted;
pub mod short;

use nodes::{AppliesEarly, Correct, TermNotSaved, TruncatesTooFar, VoteNotSaved};
use observe::Recording;
use trace::{Tables, Trace, with_refusals};

/// Which node runs.
#[derive(Debug, Clone, Copy, PartialEq, Eq)]
pub enum Mode {
    /// The correct Raft.
    Raft,
    /// The node that keeps to no rule.
    Hostile,
    /// The same node in clusters of every size, with settings from all of their ranges.
    Wide,
    /// A Raft whose votes are not persisted.
    VoteNotSaved,
    /// A Raft whose term goes back.
    TermNotSaved,
    /// A Raft that applies before it commits.
    AppliesEarly,
    /// A Raft that truncates too far.
    TruncatesTooFar,
}

impl Mode {
    /// Every mode.
    pub const ALL: [Mode; 7] = [
        Mode::Raft,
        Mode::Hostile,
        Mode::Wide,
        Mode::VoteNotSaved,
        Mode::TermNotSaved,
        Mode::AppliesEarly,
        Mode::TruncatesTooFar,
    ];

    /// The modes with a mistake.
    pub const MISTAKES: [Mode; 4] = [
        Mode::VoteNotSaved,
        Mode::TermNotSaved,
        Mode::AppliesEarly,
        Mode::TruncatesTooFar,
    ];

    /// The mode of a name.
    pub fn named(name: &str) -> Option<Self> {
        Mode::ALL.into_iter().find(|mode| mode.name() == name)
    }

    /// The mode's name.
    pub fn name(self) -> &'static str {
        match self {
            Mode::Raft => "raft",
            Mode::Hostile => "hostile",
            Mode::Wide => "wide",
            Mode::VoteNotSaved => "vote-not-saved",
            Mode::TermNotSaved => "term-not-saved",
            Mode::AppliesEarly => "applies-early",
            Mode::TruncatesTooFar => "truncates-too-far",
        }
    }
}

/// Runs a mode and a seed at the reference. The same two give the same run.
pub fn record(mode: Mode, seed: u64) -> Recording {
    match mode {
        Mode::Raft => raft::record::<Correct>(seed),
        Mode::Hostile => hostile::record(seed),
        Mode::Wide => hostile::record_wide(seed),
        Mode::VoteNotSaved => raft::record::<VoteNotSaved>(seed),
        Mode::TermNotSaved => raft::record::<TermNotSaved>(seed),
        Mode::AppliesEarly => raft::record::<AppliesEarly>(seed),
        Mode::TruncatesTooFar => raft::record::<TruncatesTooFar>(seed),
    }
}

/// Refused calls that are put into a compared run, about.
const REFUSALS: usize = 300;

/// With the largest tables a call takes long: of those that change nothing one in so many is made.
const STILL: usize = 8;

/// The run of a mode and a seed as it is compared: under these tables, with refused calls in
/// between, and of it the first `calls` calls. With the largest tables it has fewer of the calls
/// that change nothing.
pub fn compared(mode: Mode, seed: u64, tables: Tables, calls: Option<usize>) -> Trace {
    let still = if tables == Tables::Largest { STILL } else { 1 };
    let calls = calls.unwrap_or(usize::MAX);
    let mut trace = record(mode, seed).trace.under(tables);
    // The settings never change: they are read behind the start, where no cut takes the reading away.
    let settings = trace.exchanges.pop();
    trace.exchanges.truncate(calls.saturating_mul(still));
    let mut trace = refused_between(trace).thinned(still);
    trace.exchanges.splice(1..1, settings);
    trace.exchanges.truncate(calls);
    trace
}

/// The trace with refused calls in it, about as many in a long one as in a short one.
fn refused_between(trace: Trace) -> Trace {
    let every = (trace.exchanges.len() / REFUSALS).max(3);
    with_refusals(trace, every)
}

/// The beginning of the run of a mode and a seed as a module of antt, on which the definitions are
/// computed: `calls` exchanges. Refused calls are put in between; of the calls that change nothing
/// one in `still` is kept.
pub fn module(mode: Mode, seed: u64, calls: usize, still: usize) -> String {
    let name = mode.name();
    let about = format!(
        "{calls} exchanges from the beginning of the Rust's run of the node `{name}` with seed {seed}. Between them stand calls that document 01 refuses; of these and of the reads one in {still} is kept, and \
         every read that finds a reply, confirmation, violation or applied entry. Made by `write_run {name} {seed} {calls} {still}` (host/README.md). Assumes nothing."
    );
    thinned(mode, seed, still).to_antt(&about, calls)
}

/// The beginning of the run of a mode and a seed: `calls` exchanges, chosen as for [`module`].
pub fn beginning(mode: Mode, seed: u64, calls: usize, still: usize) -> Trace {
    let mut trace = thinned(mode, seed, still);
    trace.exchanges.truncate(calls);
    trace
}

/// A trace that the crate `traces` replays: the beginning of a run.
#[derive(Debug, Clone, Copy, PartialEq, Eq)]
pub struct Recorded {
    /// The node.
    pub mode: Mode,
    /// The run's seed.
    pub seed: u64,
    /// Exchanges, at most.
    pub calls: usize,
    /// Of the calls that change nothing one in so many is kept.
    pub still: usize,
}

/// The recorded traces. Between them they have every call, and every refusal but 5 and 11.
pub const RECORDED: [Recorded; 7] = [
    recorded(Mode::Hostile, 1, 5_000, 1),
    recorded(Mode::Hostile, 31, 2_000, 7),
    recorded(Mode::Raft, 20, 3_000, 200),
    recorded(Mode::VoteNotSaved, 45, 4_000, 1_000),
    recorded(Mode::TermNotSaved, 6, 2_500, 1_000),
    recorded(Mode::AppliesEarly, 9, 1_500, 1_000),
    recorded(Mode::TruncatesTooFar, 44, 2_500, 1_000),
];

const fn recorded(mode: Mode, seed: u64, calls: usize, still: usize) -> Recorded {
    Recorded {
        mode,
        seed,
        calls,
        still,
    }
}

impl Recorded {
    /// The name of its file.
    pub fn file(self) -> String {
        format!("{}-{}.bin", self.mode.name(), self.seed)
    }

    /// The trace.
    pub fn trace(self) -> Trace {
        beginning(self.mode, self.seed, self.calls, self.still)
    }
}

fn thinned(mode: Mode, seed: u64, still: usize) -> Trace {
    with_refusals(record(mode, seed).trace, 5).thinned(still)
}
