//! Draws for plans.

use consensus::{NodeId, Rng};
use sim::{Stream, stream_rng};

/// A millisecond in nanoseconds.
pub const MS: u64 = 1_000_000;

/// The choices of one run's plan.
pub struct Plan {
    rng: Rng,
}

impl Plan {
    /// The choices of a run with this seed: the reference's stream for procedures.
    pub fn new(seed: u64) -> Self {
        Plan {
            rng: stream_rng(seed, Stream::Scenario),
        }
    }

    /// A number below the bound.
    pub fn below(&mut self, bound: u64) -> u64 {
        self.rng.below(bound)
    }

    /// True once in `n` draws.
    pub fn one_in(&mut self, n: u64) -> bool {
        self.below(n) == 0
    }

    /// Any 64 bits.
    pub fn any(&mut self) -> u64 {
        self.rng.next_u64()
    }

    /// One of the choices.
    pub fn pick<T: Copy>(&mut self, choices: &[T]) -> T {
        choices[self.below(choices.len() as u64) as usize]
    }

    pub(crate) fn server(&mut self, ids: &[NodeId]) -> u64 {
        self.pick(ids).0
    }
}
