//! The port's calls, as numbers and byte slices.
//!
//! [`Port`] has one method for each exported call. Every argument is a number, a lent slice of
//! bytes, or a record of numbers; every answer is a record whose first field is the refusal, 0
//! for none. The records are `repr(C)`, so that the static library's functions can be declared
//! with them.

mod answers;
pub mod kinds;
mod settings;
mod words;

pub use answers::{
    Applied, AppliedEntry, Capacities, Confirmation, Done, Drawn, Entry, HardState, Input, Leader,
    Log, Metrics, Opened, Refused, Reply, Run, Sealed, SentBy, Status, Stepped, Violation,
};
pub use settings::{Chaos, Limits, Settings, area_length};
pub use words::Words;

/// Bytes of an entry in a schedule's list.
pub const ENTRY: usize = 32;

/// The calls. `area` is the memory that holds the state, the same at each call of a run.
pub trait Port {
    /// Begins a run.
    fn start(&mut self, area: &mut [u8], settings: &Settings, limits: &Limits, seed: u64)
    -> Opened;

    /// Takes one event, or raises the time to the deadline. A message goes to `buffer`.
    fn step(&mut self, area: &mut [u8], deadline: u64, buffer: &mut [u8]) -> Stepped;

    /// Proposes a command at a server.
    fn propose(&mut self, area: &mut [u8], server: u64) -> Opened;

    /// Fires a timer at a server.
    fn fire_timer(&mut self, area: &mut [u8], server: u64, timer: u64) -> Opened;

    /// Asks a server to confirm that it leads.
    fn confirm_leadership(&mut self, area: &mut [u8], server: u64, request: u64) -> Opened;

    /// Schedules a fault. `groups` has one byte a group; bit i is server i + 1.
    fn schedule(
        &mut self,
        area: &mut [u8],
        at: u64,
        fault: u64,
        first: u64,
        second: u64,
        groups: &[u8],
    ) -> Done;

    /// The open input sets term and vote.
    fn write_hard_state(&mut self, area: &mut [u8], term: u64, voted: u64, vote: u64) -> Done;

    /// The open input puts an entry.
    fn write_put(
        &mut self,
        area: &mut [u8],
        index: u64,
        term: u64,
        kind: u64,
        payload: &[u8],
    ) -> Done;

    /// The open input truncates the log.
    fn write_truncate(&mut self, area: &mut [u8], from: u64) -> Done;

    /// The node has returned: it refused or not, and its writes are synced or cut.
    fn seal(&mut self, area: &mut [u8], refused: u64, hinted: u64, leader: u64) -> Sealed;

    /// The node sends a message that carries `entries` log entries.
    fn output_send(&mut self, area: &mut [u8], to: u64, message: &[u8], entries: u64) -> Done;

    /// The node sets a timer.
    fn output_set_timer(&mut self, area: &mut [u8], timer: u64, after: u64) -> Done;

    /// The node cancels a timer.
    fn output_cancel_timer(&mut self, area: &mut [u8], timer: u64) -> Done;

    /// The node applies an entry.
    fn output_apply(&mut self, area: &mut [u8], index: u64, kind: u64, payload: &[u8]) -> Done;

    /// The node confirms its leadership.
    fn output_confirmed(&mut self, area: &mut [u8], request: u64, read_index: u64) -> Done;

    /// The node has lost its leadership.
    fn output_lost(&mut self, area: &mut [u8], request: u64) -> Done;

    /// The outputs are over; the node's status.
    fn end(
        &mut self,
        area: &mut [u8],
        role: u64,
        term: u64,
        hinted: u64,
        leader: u64,
        commit: u64,
    ) -> Opened;

    /// Compares every pair of logs.
    fn check_log_matching(&mut self, area: &mut [u8]) -> Done;

    /// Looks for the acknowledged commands.
    fn check_durability(&mut self, area: &mut [u8]) -> Done;

    /// A server's status.
    fn read_status(&mut self, area: &[u8], server: u64) -> Status;

    /// A server's term and vote.
    fn read_hard_state(&mut self, area: &[u8], server: u64) -> HardState;

    /// The size of a server's log.
    fn read_log(&mut self, area: &[u8], server: u64) -> Log;

    /// An entry of a server's log. A command goes to `buffer`.
    fn read_entry(&mut self, area: &[u8], server: u64, index: u64, buffer: &mut [u8]) -> Entry;

    /// The running server that leads the highest term.
    fn read_leader(&mut self, area: &[u8]) -> Leader;

    /// The highest index that a server has applied.
    fn read_applied(&mut self, area: &[u8], server: u64) -> Applied;

    /// The first payload applied at an index. A command goes to `buffer`.
    fn read_applied_entry(&mut self, area: &[u8], index: u64, buffer: &mut [u8]) -> AppliedEntry;

    /// The counters.
    fn read_metrics(&mut self, area: &[u8]) -> Metrics;

    /// What a server has sent.
    fn read_sent_by(&mut self, area: &[u8], server: u64) -> SentBy;

    /// A client's reply, by its place in order of arrival, from 0.
    fn read_reply(&mut self, area: &[u8], place: u64) -> Reply;

    /// A leadership confirmation, by its place in order of arrival, from 0.
    fn read_confirmation(&mut self, area: &[u8], place: u64) -> Confirmation;

    /// A violation that is kept, by its place in order of report, from 0.
    fn read_violation(&mut self, area: &[u8], place: u64) -> Violation;

    /// The run as a whole.
    fn read_run(&mut self, area: &[u8]) -> Run;

    /// The counts that the run was started with.
    fn read_settings(&mut self, area: &[u8]) -> Capacities;

    /// Draws a schedule of faults for the servers, one byte each. `list`, of any length, gets
    /// [`ENTRY`] bytes an entry: time, fault and the two numbers, as words. A partition's first
    /// number is its groups, one byte a group. What the list has behind the entries stays.
    fn chaos_schedule(
        &mut self,
        servers: &[u8],
        chaos: &Chaos,
        generator: &mut u64,
        list: &mut [u8],
    ) -> Drawn;
}
