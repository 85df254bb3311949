//! What every server is started with.

use std::time::Duration;

use crate::Rng;

/// Times and sizes that a node keeps to.
#[derive(Debug, Clone, PartialEq, Eq, Hash)]
pub struct Config {
    /// How often a leader sends heartbeats.
    pub heartbeat_interval: Duration,
    /// The shortest election timeout.
    pub election_timeout_min: Duration,
    /// The longest election timeout.
    pub election_timeout_max: Duration,
    /// Most entries in one message.
    pub max_entries_per_message: usize,
    /// Most entries on their way to one follower.
    pub max_entries_in_flight: usize,
}

impl Default for Config {
    /// The paper's 150 to 300 ms (section 9.3), and heartbeats twice in the shortest timeout.
    fn default() -> Self {
        Config {
            heartbeat_interval: Duration::from_millis(75),
            election_timeout_min: Duration::from_millis(150),
            election_timeout_max: Duration::from_millis(300),
            max_entries_per_message: 64,
            max_entries_in_flight: 1024,
        }
    }
}

impl Config {
    /// Draws an election timeout, each nanosecond of the range as likely as the others.
    pub fn election_timeout(&self, rng: &mut Rng) -> Duration {
        let least = nanos(self.election_timeout_min);
        let span = nanos(self.election_timeout_max).saturating_sub(least);
        Duration::from_nanos(least + rng.below(span.saturating_add(1)))
    }
}

fn nanos(duration: Duration) -> u64 {
    u64::try_from(duration.as_nanos()).unwrap_or(u64::MAX)
}
