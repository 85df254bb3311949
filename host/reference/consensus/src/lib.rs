//! The reference's crate `consensus`: its files as they are, under a root of our own.

// The reference is compared with, not judged.
#![allow(clippy::all)]

include!(concat!(env!("OUT_DIR"), "/modules.rs"));

pub use config::Config;
pub use protocol::{Consensus, NotLeader, Output, RequestId, Role, Status, Timer};
pub use rng::Rng;
pub use storage::{HardState, MemStorage, Storage};
pub use types::{Command, Entry, LogIndex, NodeId, Payload, Term};
