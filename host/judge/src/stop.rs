//! Why a run cannot go on.

use std::fmt;

use port::Limits;

/// Why a run cannot go on.
#[derive(Debug, Clone, PartialEq, Eq)]
pub enum Stop {
    /// A table is full: the run begins again with a larger one.
    Full(Raised),
    /// The node has broken its contract.
    Node(NodeFault),
    /// A call of the host itself was refused: its settings or arguments are wrong.
    Call(Refused),
}

/// A table that a run can fill, by the letters of document 01.
#[derive(Debug, Clone, Copy, PartialEq, Eq, PartialOrd, Ord)]
pub enum Capacity {
    /// Q: events.
    Events,
    /// W: writes of an input.
    Writes,
    /// H: pending keys, entries seen, leaders, replies, confirmations.
    History,
}

impl Capacity {
    /// Document 01's limit of each of them.
    pub const MOST: u64 = 65_536;

    /// This capacity among the limits.
    pub fn of(self, limits: &mut Limits) -> &mut u64 {
        match self {
            Capacity::Events => &mut limits.events,
            Capacity::Writes => &mut limits.writes,
            Capacity::History => &mut limits.history,
        }
    }
}

impl fmt::Display for Capacity {
    fn fmt(&self, f: &mut fmt::Formatter<'_>) -> fmt::Result {
        f.write_str(match self {
            Capacity::Events => "events",
            Capacity::Writes => "writes",
            Capacity::History => "history",
        })
    }
}

/// A capacity that was doubled, and for which call.
#[derive(Debug, Clone, Copy, PartialEq, Eq)]
pub struct Raised {
    /// Which.
    pub capacity: Capacity,
    /// What it was.
    pub from: u64,
    /// What it is.
    pub to: u64,
    /// The call that found it full.
    pub call: &'static str,
}

impl fmt::Display for Raised {
    fn fmt(&self, f: &mut fmt::Formatter<'_>) -> fmt::Result {
        let Raised {
            capacity,
            from,
            to,
            call,
        } = self;
        write!(f, "{capacity}: {from} were full at {call}, now {to}")
    }
}

/// A node that broke its contract.
#[derive(Debug, Clone, PartialEq, Eq)]
pub struct NodeFault {
    /// The run's seed.
    pub seed: u64,
    /// When, in nanoseconds.
    pub time: u64,
    /// Whose node.
    pub server: u64,
    /// The call that was refused, by its name; where none was, what the node was asked for.
    pub call: &'static str,
    /// The refusal, or 0: see `about`.
    pub refusal: u64,
    /// What is wrong, in words.
    pub about: String,
}

impl fmt::Display for NodeFault {
    fn fmt(&self, f: &mut fmt::Formatter<'_>) -> fmt::Result {
        let (seed, server, call) = (self.seed, self.server, self.call);
        let ms = self.time as f64 / 1e6;
        let about = &self.about;
        write!(
            f,
            "seed {seed}, {ms:.3} ms, server {server}, {call}: {about}"
        )
    }
}

/// A call of the host that was refused.
#[derive(Debug, Clone, Copy, PartialEq, Eq)]
pub struct Refused {
    /// The call, by its name.
    pub call: &'static str,
    /// The refusal.
    pub refusal: u64,
}

impl fmt::Display for Refused {
    fn fmt(&self, f: &mut fmt::Formatter<'_>) -> fmt::Result {
        let about = about(self.call, self.refusal);
        write!(f, "{} is refused with {}: {about}", self.call, self.refusal)
    }
}

impl std::error::Error for Refused {}

/// A refusal in words: what document 01 asks of this call.
pub(crate) fn about(call: &str, refusal: u64) -> &'static str {
    match (refusal, call) {
        (1, _) => "there are 1 to 8 servers",
        (2, _) => {
            "0 < heartbeat interval < shortest election timeout <= longest, and 1 <= entries per message <= entries in flight"
        }
        (3, _) => "another setting or limit is outside document 01's range",
        (4, _) => "the area is too short",
        (5, _) => "the area holds no state",
        (6, _) => "the call does not belong here",
        (7, _) => "a server is not in the cluster",
        (8, "write_put") => "an entry is put at an index outside the log",
        (8, _) => "an entry is applied at an index outside the log",
        (9, "write_put" | "output_apply") => "a payload is longer than the limit",
        (9, "output_send") => "a message is longer than the limit, or carries too many entries",
        (9, "output_set_timer") => "a timer is set for more than 2^40 ns",
        (9, _) => "a number or a length is outside its range",
        (10, _) => "a table or counter is full, as large as it can be",
        (11, _) => "no second server came within 64 draws",
        _ => "",
    }
}
