//! What the reference keeps to its crate, opened for comparison: each type here holds the
//! reference's type of the same name and hands every call on to it.

use std::time::Duration;

use consensus::{
    Command, Entry, HardState, LogIndex, MemStorage, NodeId, Payload, Rng, Status, Storage,
};

use crate::checks::{self, Violation};
use crate::metrics::Metrics;
use crate::{SimTime, client, network, plain_queue, storage};

/// The client number of commands that a direct call proposes.
pub const DIRECT: u32 = client::DIRECT;

/// Builds a client command.
pub fn encode(client: u32, seq: u64, size: usize) -> Command {
    client::encode(client, seq, size)
}

/// Reads the client and the sequence number of a command.
pub fn decode(command: &Command) -> Option<(u32, u64)> {
    client::decode(command)
}

/// A time as its nanoseconds.
pub fn nanos(time: SimTime) -> u64 {
    crate::time::nanos(time - SimTime::ZERO)
}

/// Nanoseconds as a time.
pub fn time(nanos: u64) -> SimTime {
    SimTime::from_duration(Duration::from_nanos(nanos))
}

/// Counts a message.
pub fn record_send(metrics: &mut Metrics, from: NodeId, bytes: u64, entries: u64) {
    metrics.record_send(from, bytes, entries);
}

/// What happens to a message: its delay and, if it is copied, the copy's delay.
#[derive(Debug, Clone, Copy, PartialEq, Eq)]
pub enum Route {
    /// The message is lost.
    Dropped,
    /// The message arrives.
    Delivered {
        /// After this delay.
        delay: Duration,
        /// And a copy after this one.
        duplicate: Option<Duration>,
    },
}

/// The network between servers.
pub struct Network(network::Network);

impl Network {
    /// A network with no faults.
    pub fn new(one_way_delay: Duration, rng: Rng) -> Self {
        Network(network::Network::new(one_way_delay, rng))
    }

    /// Sets the loss rate.
    pub fn set_loss(&mut self, ppm: u32) {
        self.0.loss_ppm = ppm;
    }

    /// Sets the duplication rate.
    pub fn set_duplication(&mut self, ppm: u32) {
        self.0.duplicate_ppm = ppm;
    }

    /// Sets the factor of every delay.
    pub fn set_delay_factor(&mut self, factor: u64) {
        self.0.delay_factor = factor;
    }

    /// Draws a delay.
    pub fn delay(&mut self) -> Duration {
        self.0.delay()
    }

    /// Decides about one message; none is ruled out, so its entries do not matter.
    pub fn route(&mut self, from: NodeId, to: NodeId) -> Route {
        match self.0.route(from, to, false) {
            network::Route::Dropped => Route::Dropped,
            network::Route::Delivered { delay, duplicate } => Route::Delivered { delay, duplicate },
        }
    }

    /// Blocks the links between groups.
    pub fn partition(&mut self, groups: &[Vec<NodeId>]) {
        self.0.partition(groups);
    }

    /// Blocks one link.
    pub fn block(&mut self, from: NodeId, to: NodeId) {
        self.0.block(from, to);
    }

    /// Unblocks one link.
    pub fn unblock(&mut self, from: NodeId, to: NodeId) {
        self.0.unblock(from, to);
    }

    /// Unblocks every link.
    pub fn heal_links(&mut self) {
        self.0.heal_links();
    }
}

/// The event queue.
pub struct EventQueue<E>(plain_queue::EventQueue<E>);

impl<E> Default for EventQueue<E> {
    fn default() -> Self {
        EventQueue(plain_queue::EventQueue::default())
    }
}

impl<E> EventQueue<E> {
    /// Adds an event.
    #[inline]
    pub fn push(&mut self, time: SimTime, event: E) {
        self.0.push(time, event);
    }

    /// Takes the earliest event.
    #[inline]
    pub fn pop(&mut self) -> Option<(SimTime, E)> {
        self.0.pop()
    }

    /// The time of the earliest event.
    #[inline]
    pub fn peek_time(&self) -> Option<SimTime> {
        self.0.peek_time()
    }
}

/// A server's disk.
#[derive(Debug, Clone, Default)]
pub struct TrackedStorage(storage::TrackedStorage);

impl TrackedStorage {
    /// The state under it.
    pub fn mem(&self) -> &MemStorage {
        self.0.mem()
    }

    /// The indexes put since the last call.
    pub fn take_written(&mut self) -> Vec<LogIndex> {
        self.0.take_written()
    }

    /// The bytes synced since the last call.
    pub fn take_synced_bytes(&mut self) -> u64 {
        self.0.take_synced_bytes()
    }

    /// The entries lost to overwriting and truncation.
    pub fn discarded(&self) -> u64 {
        self.0.discarded()
    }

    /// The indexes without an entry below the last one.
    pub fn gaps(&self) -> u64 {
        self.0.gaps()
    }

    /// Loses what is not synced.
    pub fn crash(&mut self) {
        self.0.crash();
    }
}

impl Storage for TrackedStorage {
    fn hard_state(&self) -> HardState {
        self.0.hard_state()
    }

    fn set_hard_state(&mut self, state: HardState) {
        self.0.set_hard_state(state);
    }

    fn entry(&self, index: LogIndex) -> Option<&Entry> {
        self.0.entry(index)
    }

    fn last_index(&self) -> LogIndex {
        self.0.last_index()
    }

    fn put(&mut self, index: LogIndex, entry: Entry) {
        self.0.put(index, entry);
    }

    fn truncate(&mut self, from: LogIndex) {
        self.0.truncate(from);
    }

    fn sync(&mut self) -> bool {
        self.0.sync()
    }
}

/// The safety checks.
pub struct Checker(checks::Checker);

impl Checker {
    /// No report yet.
    pub fn new(servers: usize, raft_checks: bool) -> Self {
        Checker(checks::Checker::new(servers, raft_checks))
    }

    /// The reports that are kept.
    pub fn violations(&self) -> &[Violation] {
        self.0.violations()
    }

    /// The number of reports.
    pub fn total(&self) -> u64 {
        self.0.total()
    }

    /// An entry is applied.
    pub fn on_apply(
        &mut self,
        time: SimTime,
        server: NodeId,
        index: LogIndex,
        payload: &Payload,
        next_apply: &mut u64,
    ) {
        self.0.on_apply(time, server, index, payload, next_apply);
    }

    /// An entry is synced.
    pub fn on_write(
        &mut self,
        time: SimTime,
        server: NodeId,
        index: LogIndex,
        storage: &MemStorage,
    ) {
        self.0.on_write(time, server, index, storage);
    }

    /// An input has ended.
    pub fn on_status(
        &mut self,
        time: SimTime,
        slot: usize,
        server: NodeId,
        status: Status,
        storage: &MemStorage,
    ) {
        self.0.on_status(time, slot, server, status, storage);
    }

    /// A server has stopped.
    pub fn on_stop(&mut self, slot: usize) {
        self.0.on_stop(slot);
    }

    /// Every pair of logs is compared.
    pub fn check_log_matching(&mut self, time: SimTime, logs: &[(NodeId, &MemStorage)]) {
        self.0.check_log_matching(time, logs);
    }

    /// The acknowledged commands are looked for.
    pub fn check_durability(
        &mut self,
        time: SimTime,
        acknowledged: &[(LogIndex, Payload)],
        applied: &[(NodeId, u64)],
    ) {
        self.0.check_durability(time, acknowledged, applied);
    }
}
