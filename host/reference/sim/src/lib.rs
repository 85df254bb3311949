//! The reference's crate `sim`: its files as they are, under a root of our own.
//!
//! [`leaves`] opens what the reference keeps to its crate. With the feature `observe` the event
//! queue that the simulation uses notes each push and take, and is otherwise the reference's.

// The reference is compared with, not judged.
#![allow(clippy::all)]

include!(concat!(env!("OUT_DIR"), "/modules.rs"));

pub mod leaves;
#[cfg(feature = "observe")]
pub mod queue;
#[cfg(not(feature = "observe"))]
use plain_queue as queue;

pub use checks::{Check, Violation};
pub use faults::{ChaosConfig, Fault, chaos_schedule};
pub use metrics::{Counts, Metrics};
pub use network::{DropRule, PPM};
pub use seeds::{Stream, stream_rng, stream_seed};
pub use simulation::{Confirmation, Observer, Reply, ServerView, SimConfig, Simulation};
pub use time::SimTime;
