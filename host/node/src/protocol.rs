//! What a node does: inputs, outputs, status.

use std::fmt::{self, Debug};
use std::hash::Hash;
use std::time::Duration;

use crate::{Command, Config, LogIndex, NodeId, Payload, Storage, Term, Wire};

/// A consensus node: a state machine that reads no clock, starts no thread and does no I/O.
///
/// The driver hands it one input at a time; then it syncs the storage; then it carries out the
/// outputs, in order. After a crash the node is dropped, and started again with what was synced.
/// A node draws random numbers from an [`Rng`](crate::Rng) that it seeds with what `start` gives
/// it, and its status changes only in an input.
pub trait Consensus: Sized {
    /// What servers send to one another.
    type Message: Clone + Debug + Eq + Hash + Wire;

    /// Starts a server with what its storage holds. `cluster` names every server, this one too.
    fn start<S: Storage>(
        id: NodeId,
        cluster: &[NodeId],
        config: &Config,
        seed: u64,
        storage: &mut S,
    ) -> (Self, Vec<Output<Self::Message>>);

    /// A message arrives.
    fn step<S: Storage>(
        &mut self,
        storage: &mut S,
        from: NodeId,
        message: Self::Message,
    ) -> Vec<Output<Self::Message>>;

    /// A timer fires.
    fn on_timer<S: Storage>(&mut self, storage: &mut S, timer: Timer)
    -> Vec<Output<Self::Message>>;

    /// A client proposes a command.
    ///
    /// # Errors
    ///
    /// [`NotLeader`] where this server does not lead.
    fn propose<S: Storage>(
        &mut self,
        storage: &mut S,
        command: Command,
    ) -> Result<Vec<Output<Self::Message>>, NotLeader>;

    /// The server is asked to confirm with a majority that it leads (section 8 of the paper). The
    /// answer is a later output with the same request.
    ///
    /// # Errors
    ///
    /// [`NotLeader`] where this server does not lead.
    fn confirm_leadership<S: Storage>(
        &mut self,
        storage: &mut S,
        request: RequestId,
    ) -> Result<Vec<Output<Self::Message>>, NotLeader>;

    /// The server's state as the checks see it.
    fn status(&self) -> Status;

    /// The name of a message's kind, for stories.
    fn message_kind(message: &Self::Message) -> &'static str;

    /// The log entries that a message carries, for counters.
    fn entry_count(message: &Self::Message) -> usize;
}

/// What a node asks its driver to do.
#[derive(Debug, Clone, PartialEq, Eq, Hash)]
pub enum Output<M> {
    /// Send a message. It may come late, twice, out of order or not at all.
    Send {
        /// To whom.
        to: NodeId,
        /// What.
        message: M,
    },
    /// Fire a timer after a while, in place of the pending one of its kind.
    SetTimer {
        /// Which.
        timer: Timer,
        /// After how long.
        after: Duration,
    },
    /// Forget the pending timer of this kind.
    CancelTimer {
        /// Which.
        timer: Timer,
    },
    /// An entry is committed. They are applied in order, without gaps, noops too.
    Apply {
        /// Its index.
        index: LogIndex,
        /// What it holds.
        payload: Payload,
    },
    /// The server still leads, as it was asked to confirm.
    LeadershipConfirmed {
        /// The request.
        request: RequestId,
        /// The commit index when it was asked.
        read_index: LogIndex,
    },
    /// The server leads no more, and cannot confirm.
    LeadershipLost {
        /// The request.
        request: RequestId,
    },
}

/// A timer.
#[derive(Debug, Clone, Copy, PartialEq, Eq, PartialOrd, Ord, Hash)]
pub enum Timer {
    /// No leader was heard of.
    Election,
    /// A leader should send heartbeats.
    Heartbeat,
}

/// A request to confirm leadership, named by the driver.
#[derive(Debug, Clone, Copy, PartialEq, Eq, PartialOrd, Ord, Hash)]
pub struct RequestId(pub u64);

/// A server's role.
#[derive(Debug, Clone, Copy, PartialEq, Eq, Hash)]
pub enum Role {
    /// Follows a leader.
    Follower,
    /// Wants to lead.
    Candidate,
    /// Leads.
    Leader,
}

/// A server's state as the checks see it.
#[derive(Debug, Clone, Copy, PartialEq, Eq, Hash)]
pub struct Status {
    /// Its role.
    pub role: Role,
    /// Its term.
    pub term: Term,
    /// The leader that it knows; a leader names itself.
    pub leader: Option<NodeId>,
    /// The highest index that it knows to be committed.
    pub commit_index: LogIndex,
}

/// The answer of a server that does not lead.
#[derive(Debug, Clone, Copy, PartialEq, Eq, Hash)]
pub struct NotLeader {
    /// The leader that it knows.
    pub leader: Option<NodeId>,
}

impl fmt::Display for NotLeader {
    fn fmt(&self, f: &mut fmt::Formatter<'_>) -> fmt::Result {
        match self.leader {
            Some(NodeId(id)) => write!(f, "not the leader; server {id} may be"),
            None => f.write_str("not the leader, and none is known"),
        }
    }
}

impl std::error::Error for NotLeader {}
