//! What a host works out for a run: seeds of streams, commands, settings as a node has them.

use std::time::Duration;

use node::{Command, Config, Rng};
use port::Settings;

/// Bytes of a command that name its client and its sequence number.
const KEY: usize = 12;

/// A part of a run with random numbers of its own.
#[derive(Debug, Clone, Copy, PartialEq, Eq)]
pub enum Stream {
    /// Schedules of faults.
    Faults,
    /// The choices of a plan.
    Scenario,
}

/// The seed of a stream, as the reference's `stream_seed` has it.
pub fn stream_seed(seed: u64, stream: Stream) -> u64 {
    let tag: u64 = match stream {
        Stream::Faults => 1,
        Stream::Scenario => 4,
    };
    let base = Rng::new(seed).next_u64();
    Rng::new(base ^ tag.wrapping_mul(0x9E37_79B9_7F4A_7C15)).next_u64()
}

/// The command of a proposal: its client and sequence number, little-endian, then zeros.
pub fn command(client: u64, sequence: u64, size: u64) -> Command {
    let mut bytes = vec![0; usize::try_from(size).map_or(KEY, |size| size.max(KEY))];
    bytes[..4].copy_from_slice(&client.to_le_bytes()[..4]);
    bytes[4..KEY].copy_from_slice(&sequence.to_le_bytes());
    Command(bytes)
}

/// The settings that a node is started with.
pub(crate) fn config(settings: &Settings) -> Config {
    let count = |number: u64| usize::try_from(number).unwrap_or(usize::MAX);
    Config {
        heartbeat_interval: Duration::from_nanos(settings.heartbeat_interval),
        election_timeout_min: Duration::from_nanos(settings.election_timeout_min),
        election_timeout_max: Duration::from_nanos(settings.election_timeout_max),
        max_entries_per_message: count(settings.max_entries_per_message),
        max_entries_in_flight: count(settings.max_entries_in_flight),
    }
}
