//! The numbers of kinds: the order of declaration in the reference, from 0.

/// What opens.
pub mod input {
    /// Nothing.
    pub const NONE: u64 = 0;
    /// A server starts: incarnation, the node's seed.
    pub const START: u64 = 1;
    /// A message arrives: sender, length, entries.
    pub const MESSAGE: u64 = 2;
    /// A timer fires: timer.
    pub const TIMER: u64 = 3;
    /// A command is proposed: client, sequence.
    pub const PROPOSAL: u64 = 4;
    /// Leadership is to be confirmed: request.
    pub const CONFIRMATION: u64 = 5;
}

/// What a seal did.
pub mod seal {
    /// The writes are durable.
    pub const SYNCED: u64 = 1;
    /// There was nothing to sync.
    pub const NOTHING: u64 = 2;
    /// The server crashed before the sync.
    pub const CUT: u64 = 3;
}

/// The phase of a run.
pub mod phase {
    /// No input is open.
    pub const CLOSED: u64 = 0;
    /// An input is open and not sealed.
    pub const WRITING: u64 = 1;
    /// An input is open and synced.
    pub const SENDING: u64 = 2;
}

/// A server's role.
pub mod role {
    /// Follows a leader.
    pub const FOLLOWER: u64 = 0;
    /// Trying to become leader.
    pub const CANDIDATE: u64 = 1;
    /// Leads.
    pub const LEADER: u64 = 2;
}

/// A timer.
pub mod timer {
    /// Fires when no leader was heard of.
    pub const ELECTION: u64 = 0;
    /// Fires when a leader should send heartbeats.
    pub const HEARTBEAT: u64 = 1;
}

/// What an entry holds.
pub mod payload {
    /// Nothing.
    pub const NOOP: u64 = 0;
    /// A client's command.
    pub const COMMAND: u64 = 1;
}

/// A fault, and what its two numbers are.
pub mod fault {
    /// Server.
    pub const CRASH: u64 = 0;
    /// Server.
    pub const CRASH_DURING_NEXT_INPUT: u64 = 1;
    /// Server.
    pub const RESTART: u64 = 2;
    /// Downtime.
    pub const CRASH_LEADER: u64 = 3;
    /// No number; the groups.
    pub const PARTITION: u64 = 4;
    /// From, to.
    pub const BLOCK: u64 = 5;
    /// From, to.
    pub const UNBLOCK: u64 = 6;
    /// None.
    pub const HEAL_LINKS: u64 = 7;
    /// Rate.
    pub const SET_LOSS: u64 = 8;
    /// Rate.
    pub const SET_DUPLICATION: u64 = 9;
    /// Factor.
    pub const SET_DELAY_FACTOR: u64 = 10;
    /// None.
    pub const HEAL_ALL: u64 = 11;
}

/// A refusal: the number of document 01's question that was answered no.
pub mod refusal {
    /// Accepted.
    pub const NONE: u64 = 0;
    /// Servers outside 1 to 8.
    pub const SERVERS: u64 = 1;
    /// The consensus settings cannot be used together.
    pub const CONFIG: u64 = 2;
    /// Another setting or limit.
    pub const SETTINGS: u64 = 3;
    /// The area is too short.
    pub const AREA: u64 = 4;
    /// The area holds no state.
    pub const STATE: u64 = 5;
    /// The call does not belong to the phase.
    pub const PHASE: u64 = 6;
    /// A server is not in the cluster.
    pub const SERVER: u64 = 7;
    /// A log index is out of range.
    pub const INDEX: u64 = 8;
    /// A time, factor, length, kind or buffer.
    pub const RANGE: u64 = 9;
    /// A table, counter or time has no room.
    pub const ROOM: u64 = 10;
    /// No second server within 64 draws.
    pub const DRAWS: u64 = 11;
}
