//! A server's storage as its node sees it in an input.

use std::collections::BTreeMap;

use node::{Entry, HardState, LogIndex, Storage};

/// A write of a node.
#[derive(Debug, Clone, PartialEq, Eq)]
pub enum Write {
    /// Term and vote.
    HardState(HardState),
    /// An entry at an index.
    Put(LogIndex, Entry),
    /// No entry at this index or behind it.
    Truncate(LogIndex),
}

/// What the port holds of a server's storage, read at its start, with what its node has written
/// since. The writes of the open input wait to be handed over; whether they last is the port's
/// matter, which is read again at the next start.
#[derive(Debug, Default)]
pub(crate) struct Disk {
    pub(crate) hard_state: HardState,
    pub(crate) log: BTreeMap<LogIndex, Entry>,
    pub(crate) writes: Vec<Write>,
}

impl Storage for Disk {
    fn hard_state(&self) -> HardState {
        self.hard_state
    }

    fn set_hard_state(&mut self, state: HardState) {
        self.hard_state = state;
        self.writes.push(Write::HardState(state));
    }

    fn entry(&self, index: LogIndex) -> Option<&Entry> {
        self.log.get(&index)
    }

    fn last_index(&self) -> LogIndex {
        let last = self.log.last_key_value();
        last.map_or(LogIndex::ZERO, |(index, _)| *index)
    }

    fn put(&mut self, index: LogIndex, entry: Entry) {
        self.log.insert(index, entry.clone());
        self.writes.push(Write::Put(index, entry));
    }

    fn truncate(&mut self, from: LogIndex) {
        self.log.split_off(&from);
        self.writes.push(Write::Truncate(from));
    }
}
