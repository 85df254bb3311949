//! Nodes under the reference, and the reference's under the judge.
//!
//! [`Adapted`] runs a node of the judge under the reference's trait, so that the same node runs on
//! both sides; [`Raft`] is the embedded one. [`Foreign`] is the inverse: it runs a node that was
//! written for the reference's trait under the judge, unchanged. [`Hostile`] is such a node; it
//! keeps to no rule but the limits of document 01.

mod adapted;
mod carried;
mod foreign;
mod hostile;
mod same;

pub use adapted::Adapted;
pub use carried::Carried;
pub use foreign::Foreign;
pub use hostile::{Hostile, Noise};
pub use node::{AppliesEarly, Correct, TermNotSaved, TruncatesTooFar, Variant, VoteNotSaved};

/// The embedded Raft under the reference's trait.
pub type Raft<V> = Adapted<node::Raft<V>>;
