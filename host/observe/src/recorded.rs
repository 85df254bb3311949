//! A node that notes each of its inputs.

use std::cell::RefCell;

use consensus::{
    Command, Config, Consensus, Entry, HardState, LogIndex, NodeId, NotLeader, Output, RequestId,
    Status, Storage, Timer,
};
use port::Log;
use trace::Call;

/// One input as its node saw it.
#[derive(Debug, Clone)]
pub(crate) struct Seen {
    /// The server.
    pub server: u64,
    /// What opened it.
    pub kind: Kind,
    /// At a start, the storage before the first write.
    pub found: Disk,
    /// The writes, as calls.
    pub writes: Vec<Call>,
    /// Where there were writes, the storage after the last one.
    pub left: Disk,
    /// The leader that a refusal named, or none; `None` where the node did not refuse.
    pub refused: Option<Option<NodeId>>,
    /// The outputs, as calls.
    pub outputs: Vec<Call>,
    /// The status at the end.
    pub status: Status,
}

/// What opened an input.
#[derive(Debug, Clone)]
pub(crate) enum Kind {
    /// A start, with the node's seed.
    Start(u64),
    /// A message: its sender, its bytes and its entries.
    Message(u64, Vec<u8>, u64),
    /// A timer.
    Timer(u64),
    /// A proposed command.
    Proposal(Command),
    /// A request to confirm leadership.
    Confirmation(u64),
}

/// What an input can see of its storage.
#[derive(Debug, Clone, Default)]
pub(crate) struct Disk {
    pub hard_state: HardState,
    pub log: Log,
    /// The entries of the indexes that matter: all at a start, else those that were written.
    pub entries: Vec<(u64, Option<Entry>)>,
}

impl Disk {
    fn of<S: Storage>(storage: &S, indexes: impl IntoIterator<Item = u64>) -> Self {
        let entry = |index| storage.entry(LogIndex(index));
        let last = storage.last_index().0;
        let count = (1..=last).filter(|index| entry(*index).is_some()).count() as u64;
        Disk {
            hard_state: storage.hard_state(),
            log: Log {
                refusal: 0,
                count,
                last,
                gaps: last - count,
            },
            entries: indexes
                .into_iter()
                .map(|index| (index, entry(index).cloned()))
                .collect(),
        }
    }
}

thread_local! {
    static SEEN: RefCell<Vec<Seen>> = const { RefCell::new(Vec::new()) };
}

/// Takes the inputs noted on this thread since the last call.
pub(crate) fn take_seen() -> Vec<Seen> {
    SEEN.take()
}

/// Storage that notes each write and hands it on.
struct Noted<'s, S> {
    inner: &'s mut S,
    writes: Vec<Call>,
}

impl<'s, S> Noted<'s, S> {
    fn new(inner: &'s mut S) -> Self {
        let writes = Vec::new();
        Noted { inner, writes }
    }
}

impl<S: Storage> Storage for Noted<'_, S> {
    fn hard_state(&self) -> HardState {
        self.inner.hard_state()
    }

    fn set_hard_state(&mut self, state: HardState) {
        let (voted, vote) = numbers::optional(state.voted_for);
        let term = state.term.0;
        self.writes.push(Call::WriteHardState { term, voted, vote });
        self.inner.set_hard_state(state);
    }

    fn entry(&self, index: LogIndex) -> Option<&Entry> {
        self.inner.entry(index)
    }

    fn last_index(&self) -> LogIndex {
        self.inner.last_index()
    }

    fn put(&mut self, index: LogIndex, entry: Entry) {
        let (kind, payload) = numbers::payload(&entry.payload);
        self.writes.push(Call::WritePut {
            index: index.0,
            term: entry.term.0,
            kind,
            payload,
        });
        self.inner.put(index, entry);
    }

    fn truncate(&mut self, from: LogIndex) {
        self.writes.push(Call::WriteTruncate { from: from.0 });
        self.inner.truncate(from);
    }

    fn sync(&mut self) -> bool {
        unreachable!("a node does not sync; its driver does")
    }
}

/// The indexes that a write touches, for reading back.
fn touched(write: &Call) -> Option<u64> {
    match write {
        Call::WritePut { index, .. } => Some(*index),
        Call::WriteTruncate { from } => Some(*from),
        _ => None,
    }
}

/// An output as a call.
fn output<N: Consensus>(output: &Output<N::Message>) -> Call {
    match output {
        Output::Send { to, message } => Call::OutputSend {
            to: to.0,
            message: encoded::<N>(message),
            entries: N::entry_count(message) as u64,
        },
        Output::SetTimer { timer, after } => Call::OutputSetTimer {
            timer: numbers::timer(*timer),
            after: numbers::nanos(*after),
        },
        Output::CancelTimer { timer } => Call::OutputCancelTimer {
            timer: numbers::timer(*timer),
        },
        Output::Apply { index, payload } => {
            let (kind, payload) = numbers::payload(payload);
            let index = index.0;
            Call::OutputApply {
                index,
                kind,
                payload,
            }
        }
        Output::LeadershipConfirmed {
            request,
            read_index,
        } => Call::OutputConfirmed {
            request: request.0,
            read_index: read_index.0,
        },
        Output::LeadershipLost { request } => Call::OutputLost { request: request.0 },
    }
}

fn encoded<N: Consensus>(message: &N::Message) -> Vec<u8> {
    postcard::to_allocvec(message).expect("a message has an encoding")
}

/// A node whose inputs are noted.
#[derive(Debug)]
pub struct Recorded<N> {
    id: NodeId,
    node: N,
}

impl<N: Consensus> Recorded<N> {
    /// Hands an input to the node, and notes it.
    fn input<S: Storage>(
        &mut self,
        storage: &mut S,
        kind: Kind,
        act: impl FnOnce(&mut N, &mut Noted<'_, S>) -> Result<Vec<Output<N::Message>>, NotLeader>,
    ) -> Result<Vec<Output<N::Message>>, NotLeader> {
        let mut storage = Noted::new(storage);
        let result = act(&mut self.node, &mut storage);
        let answer = result.as_deref().map_err(|refusal| refusal.leader);
        self.note(kind, Disk::default(), storage, answer);
        result
    }

    /// Notes an input after the node's answer.
    fn note<S: Storage>(
        &self,
        kind: Kind,
        found: Disk,
        storage: Noted<'_, S>,
        answer: Result<&[Output<N::Message>], Option<NodeId>>,
    ) {
        let Noted { inner, writes } = storage;
        let left = if writes.is_empty() {
            Disk::default()
        } else {
            Disk::of(inner, writes.iter().filter_map(touched))
        };
        let seen = Seen {
            server: self.id.0,
            kind,
            found,
            writes,
            left,
            refused: answer.err(),
            outputs: answer.unwrap_or(&[]).iter().map(output::<N>).collect(),
            status: self.node.status(),
        };
        SEEN.with_borrow_mut(|inputs| inputs.push(seen));
    }
}

impl<N: Consensus> Consensus for Recorded<N> {
    type Message = N::Message;

    fn start<S: Storage>(
        id: NodeId,
        cluster: &[NodeId],
        config: &Config,
        seed: u64,
        storage: &mut S,
    ) -> (Self, Vec<Output<N::Message>>) {
        let found = Disk::of(storage, 0..=storage.last_index().0 + 1);
        let mut storage = Noted::new(storage);
        let (node, outputs) = N::start(id, cluster, config, seed, &mut storage);
        let recorded = Recorded { id, node };
        recorded.note(Kind::Start(seed), found, storage, Ok(&outputs));
        (recorded, outputs)
    }

    fn step<S: Storage>(
        &mut self,
        storage: &mut S,
        from: NodeId,
        message: N::Message,
    ) -> Vec<Output<N::Message>> {
        let entries = N::entry_count(&message) as u64;
        let kind = Kind::Message(from.0, encoded::<N>(&message), entries);
        accepted(self.input(storage, kind, |node, storage| {
            Ok(node.step(storage, from, message))
        }))
    }

    fn on_timer<S: Storage>(&mut self, storage: &mut S, timer: Timer) -> Vec<Output<N::Message>> {
        let kind = Kind::Timer(numbers::timer(timer));
        accepted(self.input(storage, kind, |node, storage| {
            Ok(node.on_timer(storage, timer))
        }))
    }

    fn propose<S: Storage>(
        &mut self,
        storage: &mut S,
        command: Command,
    ) -> Result<Vec<Output<N::Message>>, NotLeader> {
        let kind = Kind::Proposal(command.clone());
        self.input(storage, kind, |node, storage| {
            node.propose(storage, command)
        })
    }

    fn confirm_leadership<S: Storage>(
        &mut self,
        storage: &mut S,
        request: RequestId,
    ) -> Result<Vec<Output<N::Message>>, NotLeader> {
        let kind = Kind::Confirmation(request.0);
        self.input(storage, kind, |node, storage| {
            node.confirm_leadership(storage, request)
        })
    }

    fn status(&self) -> Status {
        self.node.status()
    }

    fn message_kind(message: &N::Message) -> &'static str {
        N::message_kind(message)
    }

    fn entry_count(message: &N::Message) -> usize {
        N::entry_count(message)
    }
}

/// The outputs of an input that cannot be refused.
fn accepted<M>(result: Result<Vec<Output<M>>, NotLeader>) -> Vec<Output<M>> {
    result.expect("only a proposal or a confirmation is refused")
}
