//! What a run is started with.

use crate::words::records;

records! {
    /// The reference's `SimConfig` with its `Config`, durations in nanoseconds.
    Settings {
        /// Number of servers, 1 to 8.
        servers: u64,
        /// How often a leader sends heartbeats.
        heartbeat_interval: u64,
        /// Shortest election timeout.
        election_timeout_min: u64,
        /// Longest election timeout.
        election_timeout_max: u64,
        /// Most entries in one message.
        max_entries_per_message: u64,
        /// Most entries without an acknowledgment.
        max_entries_in_flight: u64,
        /// Mean delay of a message.
        one_way_delay: u64,
        /// Number of clients, 0 to 64.
        clients: u64,
        /// Size of a client's command.
        command_bytes: u64,
        /// How long a client waits for a reply.
        client_timeout: u64,
        /// How long a client waits where no leader is known.
        client_backoff: u64,
        /// Whether the bytes of messages are counted, 0 or 1.
        count_bytes: u64,
        /// Whether leader completeness is checked, 0 or 1.
        raft_checks: u64,
        /// Servers first start within this time.
        start_spread: u64,
    }

    /// The sizes of the tables, by the letters of document 01.
    Limits {
        /// L: log indexes, 1 to 1,024.
        log: u64,
        /// P: bytes of a payload, 12 to 256.
        payload: u64,
        /// M: bytes of a message, 0 to 4,096.
        message: u64,
        /// Q: events, 1 to 65,536.
        events: u64,
        /// W: unsynced writes, 1 to 65,536.
        writes: u64,
        /// H: history, 1 to 65,536.
        history: u64,
    }
}

records! {
    /// The reference's `ChaosConfig`, in nanoseconds.
    Chaos {
        /// The earliest time of a fault.
        start: u64,
        /// When every fault ends.
        end: u64,
        /// The mean time between faults.
        mean_gap: u64,
        /// The longest duration of a fault.
        max_duration: u64,
    }
}

/// The area's length in bytes, by document 01's formula.
pub fn area_length(settings: &Settings, limits: &Limits) -> u64 {
    let (servers, clients) = (settings.servers, settings.clients);
    let Limits {
        log,
        payload,
        message,
        events,
        writes,
        history,
    } = *limits;
    let server = 512 + 2 * log * (payload + 24) + writes * (payload + 32) + 16 * history;
    4_096
        + servers * server
        + events * (message + 64)
        + history * (2 * payload + 160)
        + log * (payload + 16)
        + 64 * clients
}
