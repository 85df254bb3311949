//! The port's calls over the reference's own modules.
//!
//! The reference's simulation.rs, cut where it calls its node: the queue, network, storage, checks
//! and metrics are the reference's, and only the order of what the driver does is written again,
//! in the pieces that the calls ask for. It shows that the calls suffice to make the reference's
//! runs, and is what traces are replayed at where no port is linked.
//!
//! It keeps its state itself and looks at the area's length alone. Of document 01's questions it
//! asks 1 to 4 and 6 to 9, and 10 of the calls that add one write, timer, fault or confirmation.

mod clients;
mod events;
mod inputs;
mod questions;
mod reads;
mod state;

use std::time::Duration;

use consensus::{Entry, HardState, LogIndex, NodeId, Rng, Storage, Term};
use port::{
    Applied, AppliedEntry, Capacities, Chaos, Confirmation, Done, Drawn, Input, Leader, Limits,
    Log, Metrics, Opened, Port, Refused, Reply, Run, Sealed, SentBy, Settings, Status, Stepped,
    Violation, kinds,
};
use sim::leaves;

use questions::Question;
use state::{Kind, Proposer, State};

/// The stand-in for a port.
#[derive(Default)]
pub struct Stepwise {
    state: Option<State>,
}

impl Stepwise {
    /// The run. A call before any start has none to act on.
    fn state(&mut self) -> &mut State {
        self.state.as_mut().expect("a run is started first")
    }

    /// Asks the questions; where all are answered yes, acts.
    fn call<A: Refused>(&mut self, questions: &[Question], act: impl FnOnce(&mut State) -> A) -> A {
        let state = self.state();
        let refusal = questions
            .iter()
            .find_map(|question| question.refuses(state));
        refusal.map_or_else(|| act(state), A::refused)
    }

    /// A call that opens an input or none.
    fn open(&mut self, questions: &[Question], act: impl FnOnce(&mut State) -> Input) -> Opened {
        self.call(questions, |state| Opened {
            refusal: 0,
            input: act(state),
        })
    }

    /// A call with nothing to tell.
    fn done(&mut self, questions: &[Question], act: impl FnOnce(&mut State)) -> Done {
        self.call(questions, |state| {
            act(state);
            Done::default()
        })
    }
}

/// Writes a message or a command to the lent buffer.
fn lend(buffer: &mut [u8], bytes: &[u8]) {
    buffer[..bytes.len()].copy_from_slice(bytes);
}

impl Port for Stepwise {
    fn start(
        &mut self,
        area: &mut [u8],
        settings: &Settings,
        limits: &Limits,
        seed: u64,
    ) -> Opened {
        if let Some(refusal) = questions::refuses_start(settings, limits, area.len()) {
            return Opened::refused(refusal);
        }
        let (state, input) = State::start(settings, limits, seed);
        self.state = Some(state);
        Opened { refusal: 0, input }
    }

    fn step(&mut self, _area: &mut [u8], deadline: u64, buffer: &mut [u8]) -> Stepped {
        let questions = [
            Question::Closed,
            Question::AtMost(deadline, 1 << 62),
            Question::Buffer(buffer.len(), |limits| limits.message),
        ];
        self.call(&questions, |state| {
            let (taken, input) = state.step(leaves::time(deadline), |bytes| lend(buffer, bytes));
            Stepped {
                refusal: 0,
                taken: taken.into(),
                input,
            }
        })
    }

    fn propose(&mut self, _area: &mut [u8], server: u64) -> Opened {
        let questions = [Question::Closed, Question::Member(server)];
        self.open(&questions, |state| {
            let seq = state.direct_seq;
            state.direct_seq += 1;
            state.open_if_running(
                server as usize - 1,
                Kind::Proposal(Proposer::Direct { seq }),
            )
        })
    }

    fn fire_timer(&mut self, _area: &mut [u8], server: u64, timer: u64) -> Opened {
        let questions = [
            Question::Closed,
            Question::Member(server),
            Question::Timer(timer),
        ];
        self.open(&questions, |state| {
            state.open_if_running(server as usize - 1, Kind::Timer(timer))
        })
    }

    fn confirm_leadership(&mut self, _area: &mut [u8], server: u64, request: u64) -> Opened {
        let questions = [Question::Closed, Question::Member(server)];
        self.open(&questions, |state| {
            state.open_if_running(server as usize - 1, Kind::Confirmation { request })
        })
    }

    fn schedule(
        &mut self,
        _area: &mut [u8],
        at: u64,
        fault: u64,
        first: u64,
        second: u64,
        groups: &[u8],
    ) -> Done {
        let questions = [
            Question::Closed,
            Question::Targets(fault, first, second, groups),
            Question::AtMost(at, 1 << 62),
            Question::Fault(fault, first, groups),
            Question::RoomForEvent,
        ];
        self.done(&questions, |state| {
            let fault = numbers::fault_of(fault, first, second, groups);
            state.schedule(leaves::time(at), fault);
        })
    }

    fn write_hard_state(&mut self, _area: &mut [u8], term: u64, voted: u64, vote: u64) -> Done {
        let questions = [
            Question::Writing,
            Question::Flag(voted),
            Question::RoomForWrite,
        ];
        self.done(&questions, |state| {
            let term = Term(term);
            let voted_for = numbers::optional_of(voted, vote);
            let hard_state = HardState { term, voted_for };
            state.write().set_hard_state(hard_state);
        })
    }

    fn write_put(
        &mut self,
        _area: &mut [u8],
        index: u64,
        term: u64,
        kind: u64,
        payload: &[u8],
    ) -> Done {
        let questions = [
            Question::Writing,
            Question::Index(1, index),
            Question::Payload(kind, payload),
            Question::RoomForWrite,
        ];
        self.done(&questions, |state| {
            let term = Term(term);
            let payload = numbers::payload_of(kind, payload);
            let entry = Entry { term, payload };
            state.write().put(LogIndex(index), entry);
        })
    }

    fn write_truncate(&mut self, _area: &mut [u8], from: u64) -> Done {
        let questions = [Question::Writing, Question::RoomForWrite];
        self.done(&questions, |state| {
            state.write().truncate(LogIndex(from));
        })
    }

    fn seal(&mut self, _area: &mut [u8], refused: u64, hinted: u64, leader: u64) -> Sealed {
        let questions = [
            Question::Writing,
            Question::Flag(refused),
            // The hint of an input that is not refused is not looked at.
            Question::Flag(if refused == 1 { hinted } else { 0 }),
            Question::MayRefuse(refused),
        ];
        self.call(&questions, |state| {
            let hint = numbers::optional_of(hinted, leader);
            let (outcome, input) = state.seal((refused != 0).then_some(hint));
            Sealed {
                refusal: 0,
                outcome,
                input,
            }
        })
    }

    fn output_send(&mut self, _area: &mut [u8], to: u64, message: &[u8], entries: u64) -> Done {
        let questions = [
            Question::Sending,
            Question::Member(to),
            Question::Message(message.len(), entries),
        ];
        self.done(&questions, |state| state.send(to, message, entries))
    }

    fn output_set_timer(&mut self, _area: &mut [u8], timer: u64, after: u64) -> Done {
        let questions = [
            Question::Sending,
            Question::Timer(timer),
            Question::AtMost(after, 1 << 40),
            Question::RoomForEvent,
        ];
        self.done(&questions, |state| {
            state.set_timer(timer, Duration::from_nanos(after));
        })
    }

    fn output_cancel_timer(&mut self, _area: &mut [u8], timer: u64) -> Done {
        let questions = [Question::Sending, Question::Timer(timer)];
        self.done(&questions, |state| {
            state.raise_generation(timer);
        })
    }

    fn output_apply(&mut self, _area: &mut [u8], index: u64, kind: u64, payload: &[u8]) -> Done {
        let questions = [
            Question::Sending,
            Question::Index(0, index),
            Question::Payload(kind, payload),
        ];
        self.done(&questions, |state| {
            state.apply(LogIndex(index), numbers::payload_of(kind, payload));
        })
    }

    fn output_confirmed(&mut self, _area: &mut [u8], request: u64, read_index: u64) -> Done {
        let questions = [Question::Sending, Question::RoomForConfirmation];
        self.done(&questions, |state| {
            state.confirmed(request, Some(LogIndex(read_index)));
        })
    }

    fn output_lost(&mut self, _area: &mut [u8], request: u64) -> Done {
        let questions = [Question::Sending, Question::RoomForConfirmation];
        self.done(&questions, |state| {
            state.confirmed(request, None);
        })
    }

    fn end(
        &mut self,
        _area: &mut [u8],
        role: u64,
        term: u64,
        hinted: u64,
        leader: u64,
        commit: u64,
    ) -> Opened {
        let questions = [
            Question::Synced,
            Question::AtMost(role, kinds::role::LEADER),
            Question::Flag(hinted),
        ];
        self.open(&questions, |state| {
            state.end(consensus::Status {
                role: numbers::role_of(role),
                term: Term(term),
                leader: numbers::optional_of(hinted, leader),
                commit_index: LogIndex(commit),
            })
        })
    }

    fn check_log_matching(&mut self, _area: &mut [u8]) -> Done {
        self.done(&[Question::Closed], State::check_log_matching)
    }

    fn check_durability(&mut self, _area: &mut [u8]) -> Done {
        self.done(&[Question::Closed], State::check_durability)
    }

    fn read_status(&mut self, _area: &[u8], server: u64) -> Status {
        self.call(&[Question::Member(server)], |state| {
            numbers::status(state.server(server).status)
        })
    }

    fn read_hard_state(&mut self, _area: &[u8], server: u64) -> port::HardState {
        self.call(&[Question::Member(server)], |state| {
            numbers::hard_state(state.server(server).storage.hard_state())
        })
    }

    fn read_log(&mut self, _area: &[u8], server: u64) -> Log {
        self.call(&[Question::Member(server)], |state| {
            numbers::log(state.server(server).storage.mem())
        })
    }

    fn read_entry(
        &mut self,
        _area: &[u8],
        server: u64,
        index: u64,
        buffer: &mut [u8],
    ) -> port::Entry {
        let questions = [
            Question::Member(server),
            Question::Buffer(buffer.len(), |limits| limits.payload),
        ];
        self.call(&questions, |state| {
            let entry = state.server(server).storage.entry(LogIndex(index));
            let (numbers, bytes) = numbers::entry(entry);
            lend(buffer, &bytes);
            numbers
        })
    }

    fn read_leader(&mut self, _area: &[u8]) -> Leader {
        numbers::leader(self.state().leader())
    }

    fn read_applied(&mut self, _area: &[u8], server: u64) -> Applied {
        self.call(&[Question::Member(server)], |state| Applied {
            refusal: 0,
            index: state.server(server).next_apply - 1,
        })
    }

    fn read_applied_entry(&mut self, _area: &[u8], index: u64, buffer: &mut [u8]) -> AppliedEntry {
        let questions = [Question::Buffer(buffer.len(), |limits| limits.payload)];
        self.call(&questions, |state| {
            let (numbers, bytes) = numbers::applied_entry(state.applied_at(index));
            lend(buffer, &bytes);
            numbers
        })
    }

    fn read_metrics(&mut self, _area: &[u8]) -> Metrics {
        self.state().read_metrics()
    }

    fn read_sent_by(&mut self, _area: &[u8], server: u64) -> SentBy {
        self.call(&[Question::Member(server)], |state| {
            numbers::sent_by(state.metrics.sent_by(state.server(server).id))
        })
    }

    fn read_reply(&mut self, _area: &[u8], place: u64) -> Reply {
        let held = self.state().replies.get(place as usize);
        numbers::reply(held.map(|(reply, key)| (reply, *key)))
    }

    fn read_confirmation(&mut self, _area: &[u8], place: u64) -> Confirmation {
        numbers::confirmation(self.state().confirmations.get(place as usize))
    }

    fn read_violation(&mut self, _area: &[u8], place: u64) -> Violation {
        numbers::violation(self.state().checker.violations().get(place as usize))
    }

    fn read_run(&mut self, _area: &[u8]) -> Run {
        self.state().read_run()
    }

    fn read_settings(&mut self, _area: &[u8]) -> Capacities {
        self.state().read_settings()
    }

    fn chaos_schedule(
        &mut self,
        servers: &[u8],
        chaos: &Chaos,
        generator: &mut u64,
        list: &mut [u8],
    ) -> Drawn {
        if let Some(refusal) = questions::refuses_schedule(servers, chaos) {
            return Drawn::refused(refusal);
        }
        let ids: Vec<NodeId> = servers.iter().map(|id| NodeId((*id).into())).collect();
        let mut rng = Rng::new(*generator);
        let drawn = sim::chaos_schedule(&ids, &numbers::chaos_of(chaos), &mut rng);
        let entries = numbers::schedule(&drawn);
        let words = entries.iter().flatten();
        let bytes: Vec<u8> = words.flat_map(|word| word.to_le_bytes()).collect();
        if bytes.len() > list.len() {
            return Drawn::refused(kinds::refusal::ROOM);
        }
        lend(list, &bytes);
        *generator = numbers::generator(&rng);
        Drawn {
            refusal: 0,
            count: drawn.len() as u64,
        }
    }
}
