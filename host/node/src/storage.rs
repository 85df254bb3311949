//! What a server keeps over a crash.

use crate::{Entry, LogIndex, NodeId, Term};

/// What is kept beside the log.
#[derive(Debug, Clone, Copy, Default, PartialEq, Eq, Hash)]
pub struct HardState {
    /// The current term.
    pub term: Term,
    /// For whom this server voted in that term.
    pub voted_for: Option<NodeId>,
}

/// A server's stable storage, as its node sees it.
///
/// A write is seen by the next read at once, and outlives a crash once the input that made it is
/// over: the driver syncs after each input and before its first output, or cuts the input, and then
/// its writes are gone. A node cannot sync, so there is no such method.
pub trait Storage {
    /// Term and vote.
    fn hard_state(&self) -> HardState;

    /// Sets term and vote.
    fn set_hard_state(&mut self, state: HardState);

    /// The entry at an index, if there is one.
    fn entry(&self, index: LogIndex) -> Option<&Entry>;

    /// The highest index that holds an entry; zero where the log is empty.
    fn last_index(&self) -> LogIndex;

    /// Puts an entry at an index, over any that is there. Indexes go from 1 to the log's size.
    fn put(&mut self, index: LogIndex, entry: Entry);

    /// Removes every entry at `from` and behind it.
    fn truncate(&mut self, from: LogIndex);
}
