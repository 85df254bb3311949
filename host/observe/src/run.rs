//! The reference, driven one event at a time, and the calls that this amounts to.

use std::collections::BTreeMap;

use consensus::{Consensus, NodeId, Payload, RequestId, Rng, Timer};
use port::{Chaos, Done, Drawn, ENTRY, Input, Opened, Sealed, Settings, Stepped, kinds};
use sim::queue::{Note, take_notes};
use sim::{Fault, SimTime, Simulation, Stream, chaos_schedule, leaves, stream_seed};
use trace::{Answer, Call, Exchange, Trace};

use crate::coverage::Coverage;
use crate::needs::{Key, Needs};
use crate::reads::{self, Beside, Reads};
use crate::recorded::{Kind, Recorded, Seen, take_seen};

/// The number of the reference's event `Fault`.
const FAULT_EVENT: u64 = 3;

/// The number of the reference's event `ClientReply`.
const REPLY_EVENT: u64 = 8;

/// Bytes that a schedule's list has behind its entries: a place, and a part of one.
const SPARE: usize = ENTRY + 8;

/// A run that is over.
#[derive(Debug, Clone, PartialEq, Eq)]
pub struct Recording {
    /// The calls, under the smallest limits that accept them.
    pub trace: Trace,
    /// What was met.
    pub coverage: Coverage,
    /// The violations that are kept.
    pub violations: Vec<port::Violation>,
    /// Events taken.
    pub events: u64,
}

/// A run of the reference with nodes of type `N`.
pub struct Run<N: Consensus> {
    sim: Simulation<Recorded<N>>,
    settings: Settings,
    trace: Trace,
    coverage: Coverage,
    needs: Needs,
    reads: Reads,
    /// Each server's status when no input was open.
    statuses: Vec<port::Status>,
    /// The lowest incarnation that each server can start next.
    incarnations: Vec<u32>,
    /// The first payload applied at each index, from 1, as `on_apply` in checks.rs keeps it.
    applied: Vec<Payload>,
    /// Events in the queue.
    queued: u64,
    /// The kinds of the faults in the queue, by push number.
    faults: BTreeMap<u64, u64>,
    /// The reply events that the last call pushed.
    told: Vec<u64>,
    /// The commands that the reply events in the queue answer, by push number.
    due: BTreeMap<u64, Key>,
    /// The command of the reply event that the last call took, if it took one.
    reached: Option<Key>,
    /// The commands of the replies that their clients took, in order.
    replied: Vec<Key>,
    fsyncs: u64,
}

impl<N: Consensus> Run<N> {
    /// Starts the reference.
    pub fn start(settings: &Settings, seed: u64) -> Self {
        let _ = (take_seen(), take_notes());
        let servers = settings.servers as usize;
        let mut run = Run {
            sim: Simulation::with_observer(numbers::settings_of(settings), seed, ()),
            settings: *settings,
            trace: Trace::default(),
            coverage: Coverage::default(),
            needs: Needs::new(settings),
            reads: Reads::default(),
            statuses: vec![port::Status::default(); servers],
            incarnations: vec![0; servers],
            applied: Vec::new(),
            queued: 0,
            faults: BTreeMap::new(),
            told: Vec::new(),
            due: BTreeMap::new(),
            reached: None,
            replied: Vec::new(),
            fsyncs: 0,
        };
        run.happened(Call::Start {
            settings: Box::new(*settings),
            // They are known when the run is over.
            limits: Box::default(),
            seed,
        });
        run
    }

    /// The reference.
    pub fn sim(&self) -> &Simulation<Recorded<N>> {
        &self.sim
    }

    /// The time, in nanoseconds.
    pub fn now(&self) -> u64 {
        leaves::nanos(self.sim.now())
    }

    /// Takes one event that is due by the deadline. Returns whether there was one.
    pub fn step(&mut self, deadline: u64) -> bool {
        let mut looked = 0;
        let taken = self.sim.run_until_condition(leaves::time(deadline), |_| {
            looked += 1;
            looked > 1
        });
        if !taken {
            self.coverage.count("step, nothing due");
        }
        self.happened(Call::Step { deadline });
        taken
    }

    /// Proposes a command at a server.
    pub fn propose(&mut self, server: u64) {
        let _ = self.sim.propose(NodeId(server));
        self.happened(Call::Propose { server });
    }

    /// Fires a timer at a server.
    pub fn fire_timer(&mut self, server: u64, timer: Timer) {
        self.sim.fire_timer(NodeId(server), timer);
        let timer = numbers::timer(timer);
        self.happened(Call::FireTimer { server, timer });
    }

    /// Asks a server to confirm that it leads.
    pub fn confirm_leadership(&mut self, server: u64, request: u64) {
        let _ = self
            .sim
            .confirm_leadership(NodeId(server), RequestId(request));
        self.happened(Call::ConfirmLeadership { server, request });
    }

    /// Draws a schedule of faults for the cluster.
    pub fn chaos_schedule(&mut self, chaos: &Chaos, rng: &mut Rng) -> Vec<(SimTime, Fault)> {
        let before = numbers::generator(rng);
        let ids = self.sim.ids();
        let servers = ids.iter().map(|id| id.0 as u8).collect();
        let schedule = chaos_schedule(ids, &numbers::chaos_of(chaos), rng);
        let entries = numbers::schedule(&schedule);
        let count = entries.len();
        let call = Call::ChaosSchedule {
            servers,
            chaos: *chaos,
            generator: before,
            length: (count * ENTRY + SPARE) as u64,
        };
        let drawn = Drawn {
            refusal: 0,
            count: count as u64,
        };
        let left = [numbers::generator(rng)];
        let words = left.iter().chain(entries.iter().flatten());
        let bytes = words.flat_map(|word| word.to_le_bytes()).collect();
        self.trace.push(call, (drawn, bytes));
        schedule
    }

    /// Schedules a fault.
    pub fn schedule(&mut self, at: u64, fault: Fault) {
        let (kind, first, second, groups) = numbers::fault(&fault);
        self.sim.schedule(leaves::time(at), fault);
        self.happened(Call::Schedule {
            at,
            fault: kind,
            first,
            second,
            groups,
        });
    }

    /// Compares every pair of logs.
    pub fn check_log_matching(&mut self) {
        self.sim.check_log_matching();
        self.happened(Call::CheckLogMatching {});
    }

    /// Looks for the acknowledged commands.
    pub fn check_durability(&mut self) {
        self.sim.check_durability();
        self.happened(Call::CheckDurability {});
    }

    /// Reads every log whole, and sets the limits.
    pub fn finish(mut self) -> Recording {
        Reads::whole_logs(&self.sim, &mut self.trace);
        let needed = self.needs.limits();
        if let Call::Start { limits, .. } = &mut self.trace.exchanges[0].call {
            **limits = needed;
        }
        let capacities = numbers::capacities(&self.settings, &needed);
        self.trace.push(Call::ReadSettings {}, capacities);
        let kept = self.sim.violations().iter().map(Some);
        let violations: Vec<_> = kept.map(numbers::violation).collect();
        for violation in &violations {
            self.coverage.violation(violation);
        }
        if self.sim.violation_count() > violations.len() as u64 {
            self.coverage.count("more than 32 violations");
        }
        Recording {
            trace: self.trace,
            coverage: self.coverage,
            violations,
            events: self.sim.events(),
        }
    }

    // ----- From what was noted to calls ----------------------------------------------

    /// Adds the call that was made, the calls of the inputs that it led to, and the reads.
    fn happened(&mut self, call: Call) {
        let seen = take_seen();
        let taken = self.queue_moved(&call, !seen.is_empty());
        let inputs: Vec<Input> = seen.iter().map(|seen| self.opened(seen)).collect();
        let direct = self.met(&call, &seen);

        let first = inputs.first().copied().unwrap_or_default();
        let answer = opening(&call, taken, &seen, first);
        self.trace.exchanges.push(Exchange { call, answer });
        let mut syncs = 0;
        for (place, seen) in seen.iter().enumerate() {
            let next = inputs.get(place + 1).copied().unwrap_or_default();
            let outcome = self.input(seen, next, direct);
            syncs += u64::from(outcome == kinds::seal::SYNCED);
        }
        let fsyncs = self.sim.metrics().fsyncs;
        assert_eq!(
            fsyncs - self.fsyncs,
            syncs,
            "a sync for each input that wrote"
        );
        self.fsyncs = fsyncs;
        self.replies_moved();
        self.closed(&seen);
    }

    /// Follows the replies: which command each reply event answers, and those that were taken.
    fn replies_moved(&mut self) {
        let (told, answered) = (std::mem::take(&mut self.told), self.needs.take_answered());
        assert_eq!(
            told.len(),
            answered.len(),
            "a reply event for each pending command applied"
        );
        self.due.extend(told.into_iter().zip(answered));
        if self.sim.replies().len() > self.replied.len() {
            let key = self.reached.expect("a reply comes with its event");
            self.replied.push(key);
        }
    }

    /// Follows the queue, and counts the event that was taken. Returns whether there was one.
    fn queue_moved(&mut self, call: &Call, opened: bool) -> bool {
        let mut taken = false;
        self.reached = None;
        // A scheduled fault is the call's; one that an event pushed is a leader's restart.
        let scheduled = match call {
            Call::Schedule { fault, .. } => *fault,
            _ => kinds::fault::RESTART,
        };
        for note in take_notes() {
            match note {
                Note::Pushed(event) => {
                    self.queued = event.held;
                    self.needs.events(event.held);
                    match event.kind {
                        FAULT_EVENT => {
                            self.faults.insert(event.number, scheduled);
                        }
                        REPLY_EVENT => self.told.push(event.number),
                        _ => {}
                    }
                }
                Note::Taken(event) => {
                    taken = true;
                    self.queued = event.held;
                    self.coverage.event(event.kind, opened);
                    if let Some(fault) = self.faults.remove(&event.number) {
                        self.coverage.fault(fault);
                    }
                    self.reached = self.due.remove(&event.number);
                }
            }
        }
        taken
    }

    /// Counts owed starts and direct calls. Returns whether the call was a direct one.
    fn met(&mut self, call: &Call, seen: &[Seen]) -> bool {
        let owed = match call {
            Call::Start { .. } => "owed start, construction",
            _ => "owed start, HealAll",
        };
        for _ in seen.iter().skip(1) {
            self.coverage.count(owed);
        }
        let direct = matches!(
            call,
            Call::Propose { .. } | Call::FireTimer { .. } | Call::ConfirmLeadership { .. }
        );
        if direct && seen.is_empty() {
            self.coverage.count("direct call at a stopped server");
        }
        direct
    }

    /// The numbers of an input that was opened.
    fn opened(&mut self, seen: &Seen) -> Input {
        let (kind, first, second, third) = match &seen.kind {
            Kind::Start(seed) => {
                let incarnation = self.incarnation(seen.server, *seed);
                (kinds::input::START, incarnation.into(), *seed, 0)
            }
            Kind::Message(from, bytes, entries) => {
                (kinds::input::MESSAGE, *from, bytes.len() as u64, *entries)
            }
            Kind::Timer(timer) => (kinds::input::TIMER, *timer, 0, 0),
            Kind::Proposal(command) => {
                let (client, seq) = leaves::decode(command).expect("a command has a key");
                let built = leaves::encode(client, seq, self.settings.command_bytes as usize);
                assert_eq!(*command, built, "the key and the size make the command");
                (kinds::input::PROPOSAL, client.into(), seq, 0)
            }
            Kind::Confirmation(request) => (kinds::input::CONFIRMATION, *request, 0, 0),
        };
        Input {
            kind,
            server: seen.server,
            first,
            second,
            third,
        }
    }

    /// The incarnation that has this seed: the next one, or the one after it where the server
    /// was restarted before it was started.
    fn incarnation(&mut self, server: u64, seed: u64) -> u32 {
        let next = &mut self.incarnations[server as usize - 1];
        let id = NodeId(server);
        let found = (*next..*next + 2).find(|&incarnation| {
            stream_seed(self.sim.seed(), Stream::Server { id, incarnation }) == seed
        });
        let found = found.expect("a node starts with the seed of its incarnation");
        *next = found + 1;
        found
    }

    /// The calls of one input. Returns what its seal did.
    fn input(&mut self, seen: &Seen, next: Input, direct: bool) -> u64 {
        let cut = !self.sim.is_running(NodeId(seen.server));
        self.count_input(seen, cut, direct);
        self.needs.input(seen, cut);
        self.writes(seen);
        let outcome = self.seal(seen, cut, next);
        if !cut {
            self.outputs(seen, next);
        }
        outcome
    }

    /// What the node found, its writes, and what they left.
    fn writes(&mut self, seen: &Seen) {
        let server = seen.server;
        self.read_status_before(server);
        let trace = &mut self.trace;
        if let Kind::Start(_) = seen.kind {
            reads::disk(server, &seen.found, trace);
            trace.push(Call::ReadApplied { server }, port::Applied::default());
        }
        for write in &seen.writes {
            trace.push(write.clone(), Done::default());
        }
        if !seen.writes.is_empty() {
            reads::disk(server, &seen.left, trace);
        }
    }

    /// Returns what the seal did.
    fn seal(&mut self, seen: &Seen, cut: bool, next: Input) -> u64 {
        let (hinted, leader) = numbers::optional(seen.refused.flatten());
        let seal = Call::Seal {
            refused: seen.refused.is_some().into(),
            hinted,
            leader,
        };
        let outcome = match (cut, seen.writes.is_empty()) {
            (true, _) => kinds::seal::CUT,
            (false, true) => kinds::seal::NOTHING,
            (false, false) => kinds::seal::SYNCED,
        };
        let sealed = Sealed {
            refusal: 0,
            outcome,
            input: if cut { next } else { Input::default() },
        };
        self.trace.push(seal, sealed);
        outcome
    }

    /// The outputs, and the end, which opens the next input that is owed.
    fn outputs(&mut self, seen: &Seen, next: Input) {
        for output in &seen.outputs {
            self.trace.push(output.clone(), Done::default());
            if let Call::OutputApply {
                index,
                kind,
                payload,
            } = output
                && *index == self.applied.len() as u64 + 1
            {
                self.applied.push(numbers::payload_of(*kind, payload));
            }
        }
        self.read_status_before(seen.server);
        let status = numbers::status(Some(seen.status));
        let end = Call::End {
            role: status.role,
            term: status.term,
            hinted: status.hinted,
            leader: status.leader,
            commit: status.commit,
        };
        let (refusal, input) = (0, next);
        self.trace.push(end, Opened { refusal, input });
    }

    /// While an input is open, its server's status is as before it.
    fn read_status_before(&mut self, server: u64) {
        let before = self.statuses[server as usize - 1];
        self.trace.push(Call::ReadStatus { server }, before);
    }

    fn count_input(&mut self, seen: &Seen, cut: bool, direct: bool) {
        let client = matches!(seen.kind, Kind::Proposal(_)) && !direct;
        let name = match &seen.kind {
            Kind::Start(_) => "start",
            Kind::Message(..) => "message",
            Kind::Timer(_) if direct => "direct timer",
            Kind::Timer(_) => "timer",
            Kind::Proposal(_) if client => "client proposal",
            Kind::Proposal(_) => "direct proposal",
            Kind::Confirmation(_) => "confirmation",
        };
        let refused = if seen.refused.is_some() {
            " refused"
        } else {
            ""
        };
        let seal = if cut { "cut" } else { "input" };
        self.coverage.count(&format!("{seal} {name}{refused}"));
        if let Some(leader) = seen.refused {
            self.coverage.count(match leader {
                Some(id) if self.sim.ids().contains(&id) => "refusal names a member",
                Some(_) => "refusal names a stranger",
                None => "refusal names nobody",
            });
        }
        if !cut && seen.writes.is_empty() {
            self.coverage.count("sync of nothing");
        }
    }

    /// Reads every observable now that no input is open.
    fn closed(&mut self, seen: &[Seen]) {
        let written = |seen: &Seen| -> Vec<(u64, u64)> {
            let entries = seen.left.entries.iter();
            entries.map(|(index, _)| (seen.server, *index)).collect()
        };
        let touched: Vec<_> = seen.iter().flat_map(written).collect();
        let beside = Beside {
            queued: self.queued,
            applied: &self.applied,
            replied: &self.replied,
        };
        self.reads
            .closed(&self.sim, &beside, &touched, &mut self.trace);
        for (slot, id) in self.sim.ids().iter().enumerate() {
            self.statuses[slot] = numbers::status(self.sim.status(*id));
            if !self.sim.is_running(*id) {
                self.needs.stopped(id.0);
            }
        }
        let lists = self.sim.replies().len().max(self.sim.confirmations().len());
        self.needs.history(lists as u64);
    }
}

/// What the call that opened the first input answers.
fn opening(call: &Call, taken: bool, seen: &[Seen], input: Input) -> Answer {
    let refusal = 0;
    match call {
        Call::Step { .. } => {
            let message = match seen.first().map(|seen| &seen.kind) {
                Some(Kind::Message(_, bytes, _)) => bytes.clone(),
                _ => Vec::new(),
            };
            let numbers = Stepped {
                refusal,
                taken: taken.into(),
                input,
            };
            (numbers, message).into()
        }
        Call::Start { .. }
        | Call::Propose { .. }
        | Call::FireTimer { .. }
        | Call::ConfirmLeadership { .. } => Opened { refusal, input }.into(),
        _ => Done { refusal }.into(),
    }
}
