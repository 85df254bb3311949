//! What is told of a run while it is made.

use std::time::Duration;

use node::{LogIndex, NodeId, Payload, RequestId, Role, Term, Timer};
use port::Violation;

use crate::{Fault, Raised, Write};

/// Something that is told what happens in a run, in order. `()` is told nothing, and costs nothing.
pub trait Watch {
    /// Whether anything is to be told: to know more than the calls answer, the run reads.
    const WATCHES: bool = true;

    /// Something happened at a time in nanoseconds at a server; 0 where it is of none.
    fn happened(&mut self, time: u64, server: u64, what: &Happening<'_>);

    /// The run begins again with a larger table: what was told of it so far is told again.
    fn again(&mut self, raised: &Raised) {
        let _ = raised;
    }
}

impl Watch for () {
    const WATCHES: bool = false;

    fn happened(&mut self, _time: u64, _server: u64, _what: &Happening<'_>) {}
}

impl<W: Watch> Watch for &mut W {
    const WATCHES: bool = W::WATCHES;

    fn happened(&mut self, time: u64, server: u64, what: &Happening<'_>) {
        W::happened(self, time, server, what);
    }

    fn again(&mut self, raised: &Raised) {
        W::again(self, raised);
    }
}

/// What opened an input.
#[derive(Debug, Clone, Copy, PartialEq, Eq)]
pub enum Opened {
    /// The server starts; again, where the incarnation is not 0.
    Start {
        /// How often it was started before.
        incarnation: u64,
    },
    /// A message is delivered.
    Message {
        /// Who sent it.
        from: NodeId,
        /// Its kind, by the node.
        kind: &'static str,
        /// Its bytes.
        bytes: u64,
        /// The entries that it carries.
        entries: u64,
    },
    /// A timer fires.
    Timer {
        /// Which.
        timer: Timer,
    },
    /// A command is proposed.
    Proposal {
        /// By which client; 4,294,967,295 for the plan itself.
        client: u64,
        /// Its number among the client's.
        sequence: u64,
    },
    /// Leadership is to be confirmed.
    Confirmation {
        /// The request.
        request: RequestId,
    },
}

/// What happened.
#[derive(Debug, Clone, PartialEq)]
pub enum Happening<'a> {
    /// An input is handed to the node.
    Opened(Opened),
    /// The node wrote.
    Wrote(&'a Write),
    /// The input's writes are durable.
    Synced {
        /// How many they were.
        writes: usize,
    },
    /// The input wrote nothing.
    NothingToSync,
    /// The server crashed before the sync: the input's writes are gone, and nothing is sent.
    Cut {
        /// How many they were.
        writes: usize,
    },
    /// The node refused a proposal or a confirmation.
    Refused {
        /// The leader that it named.
        leader: Option<NodeId>,
    },
    /// The node sent a message.
    Sent {
        /// To whom.
        to: NodeId,
        /// Its kind, by the node.
        kind: &'static str,
        /// Its bytes.
        bytes: u64,
        /// The entries that it carries.
        entries: u64,
    },
    /// The node set a timer.
    TimerSet {
        /// Which.
        timer: Timer,
        /// After how long it fires.
        after: Duration,
    },
    /// The node cancelled a timer.
    TimerCancelled {
        /// Which.
        timer: Timer,
    },
    /// The node applied an entry.
    Applied {
        /// Its index.
        index: LogIndex,
        /// What it holds.
        payload: &'a Payload,
    },
    /// The node answered a request to confirm its leadership.
    Confirmed {
        /// The request.
        request: RequestId,
        /// The read index, or none where leadership was lost.
        read_index: Option<LogIndex>,
    },
    /// The server's role or term is another.
    Status {
        /// The role.
        role: Role,
        /// The term.
        term: Term,
    },
    /// The server has stopped.
    Stopped,
    /// A fault of the plan is due. One that falls on the very time of another event may be told
    /// before it.
    Fault(&'a Fault),
    /// A check has failed.
    Violation(&'a Violation),
}
