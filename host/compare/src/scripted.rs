//! A node that does what a run tells it to, and runs of the reference with it.

use std::cell::RefCell;
use std::collections::VecDeque;
use std::time::Duration;

use consensus::{
    Command, Config, Consensus, Entry, HardState, LogIndex, NodeId, NotLeader, Output, Payload,
    RequestId, Role, Status, Storage, Term, Timer,
};
use nodes::{Carried, Noise};
use observe::Run;
use port::{Limits, Settings};
use sim::Fault;
use trace::{Call, Exchange, Trace};

type Outputs = Vec<Output<Carried<Noise>>>;

thread_local! {
    /// What the next inputs do, in order.
    static ACTS: RefCell<VecDeque<Act>> = const { RefCell::new(VecDeque::new()) };
}

enum Write {
    HardState(HardState),
    Put(LogIndex, Entry),
    Truncate(LogIndex),
}

/// What one input does: nothing, at a follower of term 0, and what is added to that.
pub(crate) struct Act {
    writes: Vec<Write>,
    refused: Option<Option<NodeId>>,
    outputs: Outputs,
    status: Status,
}

/// An input that does nothing.
pub(crate) fn act() -> Act {
    Act {
        writes: Vec::new(),
        refused: None,
        outputs: Vec::new(),
        status: Status {
            role: Role::Follower,
            term: Term::ZERO,
            leader: None,
            commit_index: LogIndex::ZERO,
        },
    }
}

impl Act {
    pub(crate) fn hard_state(mut self, term: u64, vote: Option<u64>) -> Self {
        self.writes.push(Write::HardState(HardState {
            term: Term(term),
            voted_for: vote.map(NodeId),
        }));
        self
    }

    pub(crate) fn put(mut self, index: u64, term: u64, payload: Payload) -> Self {
        let term = Term(term);
        let entry = Entry { term, payload };
        self.writes.push(Write::Put(LogIndex(index), entry));
        self
    }

    pub(crate) fn truncate(mut self, from: u64) -> Self {
        self.writes.push(Write::Truncate(LogIndex(from)));
        self
    }

    pub(crate) fn refuses(mut self, leader: Option<u64>) -> Self {
        self.refused = Some(leader.map(NodeId));
        self
    }

    /// The first byte is the message's count of entries.
    pub(crate) fn sends(mut self, to: u64, bytes: &[u8]) -> Self {
        let message = Carried(Noise(bytes.to_vec()));
        let to = NodeId(to);
        self.outputs.push(Output::Send { to, message });
        self
    }

    pub(crate) fn sets(mut self, timer: Timer, after: u64) -> Self {
        let after = Duration::from_nanos(after);
        self.outputs.push(Output::SetTimer { timer, after });
        self
    }

    pub(crate) fn cancels(mut self, timer: Timer) -> Self {
        self.outputs.push(Output::CancelTimer { timer });
        self
    }

    pub(crate) fn applies(mut self, index: u64, payload: Payload) -> Self {
        let index = LogIndex(index);
        self.outputs.push(Output::Apply { index, payload });
        self
    }

    pub(crate) fn confirms(mut self, request: u64, read_index: u64) -> Self {
        self.outputs.push(Output::LeadershipConfirmed {
            request: RequestId(request),
            read_index: LogIndex(read_index),
        });
        self
    }

    pub(crate) fn loses(mut self, request: u64) -> Self {
        let request = RequestId(request);
        self.outputs.push(Output::LeadershipLost { request });
        self
    }

    pub(crate) fn role(mut self, role: Role, term: u64) -> Self {
        (self.status.role, self.status.term) = (role, Term(term));
        self
    }

    pub(crate) fn leads(self, term: u64) -> Self {
        self.role(Role::Leader, term)
    }
}

/// The command of a client, 12 bytes long.
pub(crate) fn command(client: u32, seq: u64) -> Payload {
    Payload::Command(sim::leaves::encode(client, seq, 0))
}

/// A node that takes each input's act from the run.
pub(crate) struct Scripted(Status);

impl Scripted {
    fn act<S: Storage>(&mut self, storage: &mut S) -> Result<Outputs, NotLeader> {
        let next = ACTS.with_borrow_mut(VecDeque::pop_front);
        let act = next.expect("a run says what every input does");
        for write in act.writes {
            match write {
                Write::HardState(state) => storage.set_hard_state(state),
                Write::Put(index, entry) => storage.put(index, entry),
                Write::Truncate(from) => storage.truncate(from),
            }
        }
        self.0 = act.status;
        match act.refused {
            Some(leader) => Err(NotLeader { leader }),
            None => Ok(act.outputs),
        }
    }

    fn taken<S: Storage>(&mut self, storage: &mut S) -> Outputs {
        self.act(storage).expect("only what can be refused is")
    }
}

impl Consensus for Scripted {
    type Message = Carried<Noise>;

    fn start<S: Storage>(
        _id: NodeId,
        _cluster: &[NodeId],
        _config: &Config,
        _seed: u64,
        storage: &mut S,
    ) -> (Self, Outputs) {
        let mut node = Scripted(act().status);
        let outputs = node.taken(storage);
        (node, outputs)
    }

    fn step<S: Storage>(&mut self, storage: &mut S, _: NodeId, _: Carried<Noise>) -> Outputs {
        self.taken(storage)
    }

    fn on_timer<S: Storage>(&mut self, storage: &mut S, _: Timer) -> Outputs {
        self.taken(storage)
    }

    fn propose<S: Storage>(&mut self, storage: &mut S, _: Command) -> Result<Outputs, NotLeader> {
        self.act(storage)
    }

    fn confirm_leadership<S: Storage>(
        &mut self,
        storage: &mut S,
        _: RequestId,
    ) -> Result<Outputs, NotLeader> {
        self.act(storage)
    }

    fn status(&self) -> Status {
        self.0
    }

    fn message_kind(_: &Carried<Noise>) -> &'static str {
        "Noise"
    }

    fn entry_count(message: &Carried<Noise>) -> usize {
        message.0.0.first().map_or(0, |count| usize::from(*count))
    }
}

/// Which calls.
pub(crate) type Which = fn(&Call) -> bool;

/// A run of the reference with a scripted node.
pub(crate) struct Play {
    run: Run<Scripted>,
    /// How many calls the host has made.
    made: usize,
    /// The reads that are kept behind a call of the host.
    looks: Vec<(usize, Which)>,
    /// The refused calls: within which call of the host, before which call, and the number.
    refused: Vec<(usize, Which, Call, u64)>,
}

impl Play {
    /// Starts a run, in which the starting servers do this.
    pub(crate) fn start<const N: usize>(settings: &Settings, seed: u64, acts: [Act; N]) -> Self {
        ACTS.set(acts.into());
        let play = Play {
            run: Run::start(settings, seed),
            made: 0,
            looks: Vec::new(),
            refused: Vec::new(),
        };
        assert!(ACTS.take().is_empty(), "every act of the start is done");
        play
    }

    /// Makes a call, in which the opened inputs do this.
    fn call<const N: usize>(&mut self, acts: [Act; N], call: impl FnOnce(&mut Run<Scripted>)) {
        ACTS.set(acts.into());
        self.made += 1;
        call(&mut self.run);
        assert!(
            ACTS.take().is_empty(),
            "every act of call {} is done",
            self.made
        );
    }

    /// Takes an event, however late.
    pub(crate) fn step<const N: usize>(&mut self, acts: [Act; N]) {
        self.step_until(1 << 50, acts);
    }

    /// Takes an event up to a deadline.
    pub(crate) fn step_until<const N: usize>(&mut self, deadline: u64, acts: [Act; N]) {
        self.call(acts, |run| {
            run.step(deadline);
        });
    }

    /// Takes so many events, none of which opens an input.
    pub(crate) fn steps(&mut self, count: usize) {
        for _ in 0..count {
            self.step([]);
        }
    }

    pub(crate) fn schedule(&mut self, at: u64, fault: Fault) {
        self.call([], |run| run.schedule(at, fault));
    }

    /// Schedules a fault for now, and takes it.
    pub(crate) fn fault<const N: usize>(&mut self, fault: Fault, acts: [Act; N]) {
        self.schedule(0, fault);
        self.step(acts);
    }

    pub(crate) fn fire<const N: usize>(&mut self, server: u64, acts: [Act; N]) {
        self.call(acts, |run| run.fire_timer(server, Timer::Heartbeat));
    }

    pub(crate) fn propose<const N: usize>(&mut self, server: u64, acts: [Act; N]) {
        self.call(acts, |run| run.propose(server));
    }

    pub(crate) fn confirm<const N: usize>(&mut self, server: u64, acts: [Act; N]) {
        self.call(acts, |run| run.confirm_leadership(server, 7));
    }

    pub(crate) fn check_log_matching(&mut self) {
        self.call([], Run::check_log_matching);
    }

    pub(crate) fn check_durability(&mut self) {
        self.call([], Run::check_durability);
    }

    /// Keeps these reads of the last call.
    pub(crate) fn look(&mut self, which: Which) {
        self.looks.push((self.made, which));
    }

    /// Within the last call, before the first of these calls, stands one that document 01
    /// refuses with this number.
    pub(crate) fn refused(&mut self, before: Which, call: Call, number: u64) {
        self.refused.push((self.made, before, call, number));
    }

    /// The exchanges that are kept.
    pub(crate) fn trace(self) -> Trace {
        let whole = self.run.finish().trace;
        let mut kept = Trace::default();
        let mut made = 0;
        let mut refused = self.refused;
        for exchange in whole.exchanges {
            made += usize::from(is_hosts(&exchange.call) && !kept.exchanges.is_empty());
            while let Some(place) = refused
                .iter()
                .position(|(within, before, ..)| *within == made && before(&exchange.call))
            {
                let (.., call, number) = refused.remove(place);
                let answer = call.refused(number);
                kept.exchanges.push(Exchange { call, answer });
            }
            let mut looks = self.looks.iter();
            if !exchange.call.reads()
                || looks.any(|(at, which)| *at == made && which(&exchange.call))
            {
                kept.exchanges.push(exchange);
            }
        }
        assert!(refused.is_empty(), "every refused call has its place");
        kept
    }

    /// The exchanges up to the last of these calls, which is refused: there is one place less
    /// than the run needs.
    pub(crate) fn full(self, of: fn(&mut Limits) -> &mut u64, last: Which) -> Trace {
        let mut trace = self.trace();
        let at = trace.exchanges.iter().rposition(|each| last(&each.call));
        trace.exchanges.truncate(at.expect("the call is made") + 1);
        if let Some(Exchange { call, answer }) = trace.exchanges.last_mut() {
            *answer = call.refused(port::kinds::refusal::ROOM);
        }
        if let Call::Start { limits, .. } = &mut trace.exchanges[0].call {
            *of(limits) -= 1;
        }
        trace
    }
}

/// Whether the host makes the call between inputs.
fn is_hosts(call: &Call) -> bool {
    matches!(
        call,
        Call::Start { .. }
            | Call::Step { .. }
            | Call::Propose { .. }
            | Call::FireTimer { .. }
            | Call::ConfirmLeadership { .. }
            | Call::Schedule { .. }
            | Call::CheckLogMatching {}
            | Call::CheckDurability {}
    )
}
