//! The smallest limits under which a run is accepted.

use std::collections::BTreeSet;

use consensus::{Command, Role};
use port::{Limits, Settings};
use sim::leaves;
use trace::Call;

use crate::recorded::{Kind, Seen};

/// A client's command, by client and sequence.
pub(crate) type Key = (u32, u64);

/// What a run has needed of each table so far.
#[derive(Debug, Clone)]
pub(crate) struct Needs {
    limits: Limits,
    /// The commands that each server has accepted and not applied.
    pending: Vec<BTreeSet<Key>>,
    /// Index and term of each entry written.
    entries: BTreeSet<(u64, u64)>,
    /// The terms that were led.
    led: BTreeSet<u64>,
    /// The commands that were pending where they were applied, in order: each makes a reply due.
    answered: Vec<Key>,
}

impl Needs {
    pub(crate) fn new(settings: &Settings) -> Self {
        Needs {
            limits: Limits {
                log: 1,
                payload: settings.command_bytes.max(12),
                message: 0,
                events: 1,
                writes: 1,
                history: 1,
            },
            pending: vec![BTreeSet::new(); settings.servers as usize],
            entries: BTreeSet::new(),
            led: BTreeSet::new(),
            answered: Vec::new(),
        }
    }

    /// The queue holds this many events.
    pub(crate) fn events(&mut self, held: u64) {
        raise(&mut self.limits.events, held);
    }

    /// A list or table that H bounds holds this many.
    pub(crate) fn history(&mut self, held: u64) {
        raise(&mut self.limits.history, held);
    }

    /// Takes the commands answered since the last call, in order.
    pub(crate) fn take_answered(&mut self) -> Vec<Key> {
        std::mem::take(&mut self.answered)
    }

    /// A server is stopped.
    pub(crate) fn stopped(&mut self, server: u64) {
        self.pending_of(server).clear();
    }

    /// An input was made.
    pub(crate) fn input(&mut self, seen: &Seen, cut: bool) {
        let proposed = match &seen.kind {
            Kind::Proposal(command) => client_key(command),
            _ => None,
        };
        if let Some(key) = proposed {
            self.pending_of(seen.server).insert(key);
            let held = self.pending_of(seen.server).len() as u64;
            self.history(held);
        }
        raise(&mut self.limits.writes, seen.writes.len() as u64);
        for call in &seen.writes {
            self.call(seen.server, call);
        }
        if cut {
            return self.stopped(seen.server);
        }
        let held = seen.left.entries.iter();
        let terms = held.filter_map(|(i, entry)| entry.as_ref().map(|e| (*i, e.term.0)));
        self.entries.extend(terms);
        for call in &seen.outputs {
            self.call(seen.server, call);
        }
        if seen.status.role == Role::Leader {
            self.led.insert(seen.status.term.0);
        }
        if let (Some(key), Some(_)) = (proposed, seen.refused) {
            self.pending_of(seen.server).remove(&key);
        }
        let held = self.entries.len().max(self.led.len()) as u64;
        self.history(held);
    }

    fn call(&mut self, server: u64, call: &Call) {
        match call {
            Call::WritePut { index, payload, .. } => self.entry(*index, payload),
            Call::OutputApply { index, payload, .. } => {
                self.entry(*index, payload);
                if let Some(key) = leaves::decode(&Command(payload.clone()))
                    && self.pending_of(server).remove(&key)
                {
                    self.answered.push(key);
                }
            }
            Call::OutputSend { message, .. } => {
                raise(&mut self.limits.message, message.len() as u64);
            }
            _ => {}
        }
    }

    fn entry(&mut self, index: u64, payload: &[u8]) {
        raise(&mut self.limits.log, index);
        raise(&mut self.limits.payload, payload.len() as u64);
    }

    fn pending_of(&mut self, server: u64) -> &mut BTreeSet<Key> {
        &mut self.pending[server as usize - 1]
    }

    /// The limits.
    ///
    /// # Panics
    ///
    /// Panics where the run is beyond the limits of document 01.
    pub(crate) fn limits(&self) -> Limits {
        let Limits {
            log,
            payload,
            message,
            events,
            writes,
            history,
        } = self.limits;
        assert!(log <= 1_024 && payload <= 256 && message <= 4_096);
        assert!(events.max(writes).max(history) <= 65_536);
        self.limits
    }
}

/// The key of a client's command; a direct call's has no client that waits.
fn client_key(command: &Command) -> Option<Key> {
    leaves::decode(command).filter(|(client, _)| *client != leaves::DIRECT)
}

fn raise(limit: &mut u64, need: u64) {
    *limit = need.max(*limit);
}
