//! A node that keeps to no rule but the limits of document 01, the same at each run of a seed.
//!
//! It writes with gaps and over what is there, truncates at 0 and beyond the end, applies out of
//! order, sends messages of every length, sets and cancels timers, confirms what nobody asked
//! for, and refuses with hints that name anyone. The settings' two entry counts, which mean
//! nothing to it, bound it: messages are shorter than `max_entries_per_message` bytes, and log
//! indexes go up to 1 + `max_entries_in_flight` - `max_entries_per_message`.

use std::time::Duration;

use consensus::{
    Command, Config, Consensus, Entry, HardState, LogIndex, NodeId, NotLeader, Output, Payload,
    RequestId, Rng, Role, Status, Storage, Term, Timer,
};
use node::Wire;

use crate::Carried;

/// The longest timer of document 01, in nanoseconds.
const LONGEST: u64 = 1 << 40;

/// The longest payload of document 01.
const PAYLOAD: u64 = 256;

/// How many commands a node remembers.
const REMEMBERED: usize = 4;

/// A message: any bytes.
#[derive(Debug, Clone, PartialEq, Eq, Hash)]
pub struct Noise(pub Vec<u8>);

impl Wire for Noise {
    fn to_bytes(&self) -> Vec<u8> {
        self.0.clone()
    }

    fn from_bytes(bytes: &[u8]) -> Option<Self> {
        Some(Noise(bytes.to_vec()))
    }
}

/// A server.
#[derive(Debug)]
pub struct Hostile {
    cluster: Vec<NodeId>,
    rng: Rng,
    /// Messages are shorter than this.
    message: u64,
    /// Log indexes are at most this.
    log: u64,
    /// Commands that it was given lately, to apply or to write again.
    remembered: Vec<Command>,
    /// The index that it applies next when it keeps the order.
    next: u64,
    status: Status,
}

impl Hostile {
    // ----- Draws ---------------------------------------------------------------------

    /// True once in `n` draws.
    fn one_in(&mut self, n: u64) -> bool {
        self.rng.below(n) == 0
    }

    /// A number that is mostly small, and sometimes anything.
    fn number(&mut self) -> u64 {
        match self.rng.below(16) {
            0 => self.rng.next_u64(),
            1 => u64::MAX - self.rng.below(3),
            _ => self.rng.below(4),
        }
    }

    fn member(&mut self) -> NodeId {
        self.cluster[self.rng.below(self.cluster.len() as u64) as usize]
    }

    /// A server to vote for or to name as leader: a member, a stranger, or nobody.
    fn anyone(&mut self) -> Option<NodeId> {
        match self.rng.below(4) {
            0 => None,
            1 => Some(NodeId(self.number())),
            _ => Some(self.member()),
        }
    }

    fn timer(&mut self) -> Timer {
        if self.one_in(2) {
            Timer::Election
        } else {
            Timer::Heartbeat
        }
    }

    fn index(&mut self) -> u64 {
        1 + self.rng.below(self.log)
    }

    fn bytes(&mut self, bound: u64) -> Vec<u8> {
        let len = match self.rng.below(4) {
            0 => self.rng.below(bound),
            1 => bound - 1,
            _ => self.rng.below(bound.min(24)),
        };
        (0..len).map(|_| self.rng.next_u64() as u8).collect()
    }

    fn payload(&mut self) -> Payload {
        match self.rng.below(4) {
            0 => Payload::Noop,
            1 => {
                let bytes = self.bytes(PAYLOAD.min(self.message) + 1);
                Payload::Command(Command(bytes))
            }
            _ => self.known_command(),
        }
    }

    fn known_command(&mut self) -> Payload {
        match self.remembered.len() as u64 {
            0 => Payload::Noop,
            held => {
                let place = self.rng.below(held) as usize;
                Payload::Command(self.remembered[place].clone())
            }
        }
    }

    // ----- What it does --------------------------------------------------------------

    fn write<S: Storage>(&mut self, storage: &mut S) {
        match self.rng.below(8) {
            0 | 1 => {
                let term = Term(self.number());
                let voted_for = self.anyone();
                storage.set_hard_state(HardState { term, voted_for });
            }
            2 => {
                let from = match self.rng.below(4) {
                    0 => self.number(),
                    _ => self.rng.below(self.log + 3),
                };
                storage.truncate(LogIndex(from));
            }
            _ => {
                let index = LogIndex(self.index());
                let term = Term(self.number());
                let payload = self.payload();
                storage.put(index, Entry { term, payload });
            }
        }
    }

    fn apply<S: Storage>(&mut self, storage: &S) -> Output<Carried<Noise>> {
        let index = match self.rng.below(4) {
            0 => self.rng.below(self.log + 1),
            _ => self.next.min(self.log),
        };
        self.next = index + 1;
        let held = storage.entry(LogIndex(index));
        let payload = match held.map(|entry| entry.payload.clone()) {
            Some(payload) if self.one_in(2) => payload,
            _ => self.payload(),
        };
        let index = LogIndex(index);
        Output::Apply { index, payload }
    }

    fn output<S: Storage>(&mut self, storage: &S) -> Output<Carried<Noise>> {
        match self.rng.below(16) {
            0..6 => Output::Send {
                to: self.member(),
                message: Carried(Noise(self.bytes(self.message))),
            },
            6..10 => {
                let bound = if self.one_in(16) {
                    LONGEST
                } else {
                    100_000_000
                };
                let after = Duration::from_nanos(self.rng.below(bound + 1));
                let timer = self.timer();
                Output::SetTimer { timer, after }
            }
            10 => Output::CancelTimer {
                timer: self.timer(),
            },
            11..14 => self.apply(storage),
            14 => Output::LeadershipConfirmed {
                request: RequestId(self.number()),
                read_index: LogIndex(self.number()),
            },
            _ => Output::LeadershipLost {
                request: RequestId(self.number()),
            },
        }
    }

    /// One input, whatever it was.
    fn act<S: Storage>(&mut self, storage: &mut S) -> Vec<Output<Carried<Noise>>> {
        let writes = match self.rng.below(24) {
            0 => 40,
            _ => self.rng.below(4),
        };
        for _ in 0..writes {
            self.write(storage);
        }
        self.status = Status {
            role: match self.rng.below(8) {
                0 | 1 => Role::Leader,
                2 => Role::Candidate,
                _ => Role::Follower,
            },
            term: Term(self.number()),
            leader: self.anyone(),
            commit_index: LogIndex(self.number()),
        };
        let outputs = self.rng.below(5);
        (0..outputs).map(|_| self.output(storage)).collect()
    }

    /// As [`act`](Self::act), or a refusal, after the same writes.
    fn act_or_refuse<S: Storage>(
        &mut self,
        storage: &mut S,
    ) -> Result<Vec<Output<Carried<Noise>>>, NotLeader> {
        let outputs = self.act(storage);
        if self.one_in(3) {
            let leader = self.anyone();
            Err(NotLeader { leader })
        } else {
            Ok(outputs)
        }
    }
}

impl Consensus for Hostile {
    type Message = Carried<Noise>;

    fn start<S: Storage>(
        _id: NodeId,
        cluster: &[NodeId],
        config: &Config,
        seed: u64,
        storage: &mut S,
    ) -> (Self, Vec<Output<Carried<Noise>>>) {
        let message = config.max_entries_per_message as u64;
        let mut node = Hostile {
            cluster: cluster.to_vec(),
            rng: Rng::new(seed),
            message,
            log: 1 + config.max_entries_in_flight as u64 - message,
            remembered: Vec::new(),
            next: 1,
            status: Status {
                role: Role::Follower,
                term: Term::ZERO,
                leader: None,
                commit_index: LogIndex::ZERO,
            },
        };
        let outputs = node.act(storage);
        (node, outputs)
    }

    fn step<S: Storage>(
        &mut self,
        storage: &mut S,
        _from: NodeId,
        _message: Carried<Noise>,
    ) -> Vec<Output<Carried<Noise>>> {
        self.act(storage)
    }

    fn on_timer<S: Storage>(
        &mut self,
        storage: &mut S,
        _timer: Timer,
    ) -> Vec<Output<Carried<Noise>>> {
        self.act(storage)
    }

    fn propose<S: Storage>(
        &mut self,
        storage: &mut S,
        command: Command,
    ) -> Result<Vec<Output<Carried<Noise>>>, NotLeader> {
        if self.remembered.len() == REMEMBERED {
            self.remembered.remove(0);
        }
        self.remembered.push(command);
        self.act_or_refuse(storage)
    }

    fn confirm_leadership<S: Storage>(
        &mut self,
        storage: &mut S,
        _request: RequestId,
    ) -> Result<Vec<Output<Carried<Noise>>>, NotLeader> {
        self.act_or_refuse(storage)
    }

    fn status(&self) -> Status {
        self.status
    }

    fn message_kind(_message: &Carried<Noise>) -> &'static str {
        "Noise"
    }

    /// Any 32 bits: the first four bytes.
    fn entry_count(message: &Carried<Noise>) -> usize {
        let first = message.0.0.iter().take(4).rev();
        first.fold(0, |count, byte| count << 8 | usize::from(*byte))
    }
}
