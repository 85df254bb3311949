//! Every observable, as reads with their answers.

use consensus::{Consensus, LogIndex, NodeId, Payload, Storage};
use port::kinds;
use sim::{Simulation, leaves};
use trace::{Call, Trace};

use crate::needs::Key;
use crate::recorded::Disk;

/// How far the lists have been read.
#[derive(Debug, Clone, Default)]
pub(crate) struct Reads {
    replies: usize,
    confirmations: usize,
    violations: usize,
    applied: usize,
    /// How often everything was read.
    rounds: u64,
}

/// What a run keeps beside the reference.
pub(crate) struct Beside<'r> {
    /// Events in the queue.
    pub queued: u64,
    /// The first payload applied at each index, from 1.
    pub applied: &'r [Payload],
    /// The client and the sequence number of each reply, which the reference does not tell.
    pub replied: &'r [Key],
}

impl Reads {
    /// Everything that can be read between inputs. Entries: those of `touched`, and one more.
    pub(crate) fn closed<C: Consensus>(
        &mut self,
        sim: &Simulation<C>,
        beside: &Beside<'_>,
        touched: &[(u64, u64)],
        trace: &mut Trace,
    ) {
        trace.push(Call::ReadRun {}, run(sim, beside));
        trace.push(Call::ReadMetrics {}, metrics(sim));
        trace.push(Call::ReadLeader {}, numbers::leader(sim.leader()));
        for id in sim.ids() {
            server(sim, *id, trace);
        }
        for (server, index) in touched {
            entry(sim, *server, *index, trace);
        }
        self.one_more_entry(sim, trace);
        self.lists(sim, beside, trace);
    }

    /// Over the rounds, each server and each index in turn, and those just outside the log.
    fn one_more_entry<C: Consensus>(&mut self, sim: &Simulation<C>, trace: &mut Trace) {
        let servers = sim.ids().len() as u64;
        let server = 1 + self.rounds % servers;
        let last = sim.storage(NodeId(server)).last_index().0;
        let index = self.rounds / servers % (last + 2);
        entry(sim, server, index, trace);
        self.rounds += 1;
    }

    /// What is new in each list, and the place behind its end.
    fn lists<C: Consensus>(&mut self, sim: &Simulation<C>, beside: &Beside<'_>, trace: &mut Trace) {
        let replies = sim.replies();
        for place in self.replies..=replies.len() {
            let keyed = replies.get(place).zip(beside.replied.get(place));
            let reply = numbers::reply(keyed.map(|(reply, key)| (reply, (key.0.into(), key.1))));
            let place = place as u64;
            trace.push(Call::ReadReply { place }, reply);
        }
        self.replies = replies.len();

        let confirmations = sim.confirmations();
        for place in self.confirmations..=confirmations.len() {
            let confirmation = numbers::confirmation(confirmations.get(place));
            let place = place as u64;
            trace.push(Call::ReadConfirmation { place }, confirmation);
        }
        self.confirmations = confirmations.len();

        let violations = sim.violations();
        for place in self.violations..=violations.len() {
            let violation = numbers::violation(violations.get(place));
            let place = place as u64;
            trace.push(Call::ReadViolation { place }, violation);
        }
        self.violations = violations.len();

        for place in self.applied..=beside.applied.len() {
            let applied = numbers::applied_entry(beside.applied.get(place));
            let index = place as u64 + 1;
            trace.push(Call::ReadAppliedEntry { index }, applied);
        }
        self.applied = beside.applied.len();
    }

    /// Every index of every log, and those just outside it.
    pub(crate) fn whole_logs<C: Consensus>(sim: &Simulation<C>, trace: &mut Trace) {
        for id in sim.ids() {
            for index in 0..=sim.storage(*id).last_index().0 + 1 {
                entry(sim, id.0, index, trace);
            }
        }
    }
}

/// What can be read of the disk of an open input's server.
pub(crate) fn disk(server: u64, disk: &Disk, trace: &mut Trace) {
    let hard_state = numbers::hard_state(disk.hard_state);
    trace.push(Call::ReadHardState { server }, hard_state);
    trace.push(Call::ReadLog { server }, disk.log);
    for (index, entry) in &disk.entries {
        let index = *index;
        let call = Call::ReadEntry { server, index };
        trace.push(call, numbers::entry(entry.as_ref()));
    }
}

fn run<C: Consensus>(sim: &Simulation<C>, beside: &Beside<'_>) -> port::Run {
    port::Run {
        refusal: 0,
        now: leaves::nanos(sim.now()),
        events: sim.events(),
        seed: sim.seed(),
        phase: kinds::phase::CLOSED,
        server: 0,
        input: kinds::input::NONE,
        queued: beside.queued,
        replies: sim.replies().len() as u64,
        confirmations: sim.confirmations().len() as u64,
        violations: sim.violation_count(),
    }
}

/// The counters of the reference's simulation.
pub fn metrics<C: Consensus>(sim: &Simulation<C>) -> port::Metrics {
    let metrics = sim.metrics();
    port::Metrics {
        refusal: 0,
        messages: metrics.sent.messages,
        bytes: metrics.sent.bytes,
        entries: metrics.sent.entries,
        entries_to_leaders: metrics.entries_to_leaders,
        fsyncs: metrics.fsyncs,
        storage_bytes: metrics.storage_bytes,
        client_replies: metrics.client_replies,
        discarded: sim.discarded_entries(),
        max_log_gaps: sim.max_log_gaps(),
    }
}

fn server<C: Consensus>(sim: &Simulation<C>, id: NodeId, trace: &mut Trace) {
    let server = id.0;
    let storage = sim.storage(id);
    let applied = port::Applied {
        refusal: 0,
        index: sim.applied(id).0,
    };
    trace.push(Call::ReadStatus { server }, numbers::status(sim.status(id)));
    let hard_state = numbers::hard_state(storage.hard_state());
    trace.push(Call::ReadHardState { server }, hard_state);
    trace.push(Call::ReadLog { server }, numbers::log(storage));
    trace.push(Call::ReadApplied { server }, applied);
    let sent_by = numbers::sent_by(sim.metrics().sent_by(id));
    trace.push(Call::ReadSentBy { server }, sent_by);
}

fn entry<C: Consensus>(sim: &Simulation<C>, server: u64, index: u64, trace: &mut Trace) {
    let held = sim.storage(NodeId(server)).entry(LogIndex(index));
    trace.push(Call::ReadEntry { server, index }, numbers::entry(held));
}
