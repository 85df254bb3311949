//! What a consensus node is to the judge.
//!
//! A node implements [`Consensus`]: a state machine that gets one input at a time, writes to its
//! [`Storage`] and returns [`Output`]s. Names and shape are those of the reference's crate
//! `consensus`, and nothing of it is needed: a node written for the one is a node for the other
//! with its imports changed.
//!
//! [`Raft`] is a small Raft by Figure 2 of the paper. Its parameter is a [`Variant`]: [`Correct`],
//! or one of four classic mistakes, which a run must show as a violation.

mod config;
mod protocol;
mod raft;
mod rng;
mod storage;
mod types;
mod variant;
mod wire;

pub use config::Config;
pub use protocol::{Consensus, NotLeader, Output, RequestId, Role, Status, Timer};
pub use raft::{Message, Raft};
pub use rng::Rng;
pub use storage::{HardState, Storage};
pub use types::{Command, Entry, LogIndex, NodeId, Payload, Term};
pub use variant::{AppliesEarly, Correct, TermNotSaved, TruncatesTooFar, Variant, VoteNotSaved};
pub use wire::Wire;
