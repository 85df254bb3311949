//! Runs of the reference, observed and turned into the port's calls.
//!
//! The reference runs a whole input at once; the port is handed an input's writes and outputs
//! call by call. So a run is made in two layers:
//!
//! 1. [`Recorded`] wraps a node and notes each input as the node saw it: what opened it, what it
//!    wrote, what it answered. The queue of the reference notes each event that goes in or out.
//! 2. [`Run`] drives the reference one event at a time and turns what was noted into calls with
//!    the answers that they must give, then reads every observable.

mod coverage;
mod needs;
mod reads;
mod recorded;
mod run;

pub use coverage::Coverage;
pub use reads::metrics;
pub use recorded::Recorded;
pub use run::{Recording, Run};
