//! Any node under the calls of a port.
//!
//! [`Simulation`] owns an area and drives a node of type `N` at a port of type `P`: the proved
//! library, or in tests the calls over the reference's modules. [`judge()`] makes the run of a
//! [`Plan`] and a seed and tells its [`Verdict`]; [`campaign`] does it for many seeds. [`Watch`] is
//! told what happens in a run, for stories and pictures.

mod campaign;
mod disk;
mod input;
mod plan;
mod run;
mod simulation;
mod stop;
mod verdict;
mod watch;

pub use campaign::campaign;
pub use disk::Write;
pub use plan::{Driver, Fault, Faults, Plan, drive};
pub use run::{Stream, command, stream_seed};
pub use simulation::Simulation;
pub use stop::{Capacity, NodeFault, Raised, Refused, Stop};
pub use verdict::{Verdict, judge};
pub use watch::{Happening, Opened, Watch};
