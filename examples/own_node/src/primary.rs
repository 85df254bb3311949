//! A fixed primary: server 1 takes every command and copies its log to the others. There are no
//! elections, so nothing is acknowledged while server 1 is down; but what is acknowledged must stay.
//!
//! It has a mistake: the primary keeps its log in memory, and leaves the writing to the others.

use std::collections::BTreeMap;

use bucketbeach::node::{
    Command, Config, Consensus, Entry, LogIndex, NodeId, NotLeader, Output, Payload, RequestId,
    Role, Status, Storage, Term, Timer,
};
use serde::{Deserialize, Serialize};

/// The primary, always.
const PRIMARY: NodeId = NodeId(1);
/// Its term, always.
const TERM: Term = Term(1);
/// Whether the primary writes its log to stable storage. Here is the mistake.
const PRIMARY_WRITES: bool = cfg!(feature = "fixed");

/// What servers send to one another.
#[derive(Debug, Clone, PartialEq, Eq, Hash, Serialize, Deserialize)]
pub enum Message {
    /// The primary: so much is committed, and here is your next entry, if there is one.
    Copy {
        commit: LogIndex,
        next: Option<(LogIndex, Entry)>,
    },
    /// Another server: my log goes up to here.
    Have { last: LogIndex },
}

/// A server.
pub struct Primary {
    id: NodeId,
    others: Vec<NodeId>,
    config: Config,
    /// The log, as this server knows it.
    log: Vec<Entry>,
    /// The primary's: how far the others' logs go.
    have: BTreeMap<NodeId, LogIndex>,
    commit: LogIndex,
    applied: LogIndex,
}

type Outputs = Vec<Output<Message>>;

impl Primary {
    fn leads(&self) -> bool {
        self.id == PRIMARY
    }

    fn last(&self) -> LogIndex {
        LogIndex(self.log.len() as u64)
    }

    fn entry(&self, index: LogIndex) -> Option<&Entry> {
        let place = usize::try_from(index.0).ok()?.checked_sub(1)?;
        self.log.get(place)
    }

    /// Puts an entry behind the last.
    fn append<S: Storage>(&mut self, storage: &mut S, entry: Entry) {
        if PRIMARY_WRITES || !self.leads() {
            storage.put(self.last().next(), entry.clone());
        }
        self.log.push(entry);
    }

    /// What is to be sent to another server: the entry behind its last.
    fn copy(&self, to: NodeId) -> Output<Message> {
        let next = self.have.get(&to).map(|last| last.next());
        let next = next.and_then(|index| Some((index, self.entry(index)?.clone())));
        let commit = self.commit;
        Output::Send {
            to,
            message: Message::Copy { commit, next },
        }
    }

    fn copies(&self) -> Outputs {
        self.others.iter().map(|to| self.copy(*to)).collect()
    }

    /// The primary's timer for the next copies.
    fn beat(&self) -> Output<Message> {
        Output::SetTimer {
            timer: Timer::Heartbeat,
            after: self.config.heartbeat_interval,
        }
    }

    /// Commits what a majority has, this server included.
    fn count(&mut self) {
        let mut logs: Vec<LogIndex> = self.have.values().copied().collect();
        logs.push(self.last());
        logs.resize(self.others.len() + 1, LogIndex::ZERO);
        logs.sort();
        let majority = logs[(logs.len() - 1) / 2];
        self.commit = self.commit.max(majority);
    }

    /// Applies what is committed and here.
    fn apply(&mut self) -> Outputs {
        let mut outputs = Vec::new();
        while self.applied < self.commit.min(self.last()) {
            self.applied = self.applied.next();
            let entry = self.entry(self.applied).expect("it is in the log");
            outputs.push(Output::Apply {
                index: self.applied,
                payload: entry.payload.clone(),
            });
        }
        outputs
    }
}

impl Consensus for Primary {
    type Message = Message;

    fn start<S: Storage>(
        id: NodeId,
        cluster: &[NodeId],
        config: &Config,
        _seed: u64,
        storage: &mut S,
    ) -> (Self, Outputs) {
        let indexes = (1..=storage.last_index().0).map(LogIndex);
        let log = indexes.filter_map(|index| storage.entry(index).cloned());
        let node = Primary {
            id,
            others: cluster
                .iter()
                .copied()
                .filter(|other| *other != id)
                .collect(),
            config: config.clone(),
            log: log.collect(),
            have: BTreeMap::new(),
            commit: LogIndex::ZERO,
            applied: LogIndex::ZERO,
        };
        let outputs = if node.leads() {
            vec![node.beat()]
        } else {
            Vec::new()
        };
        (node, outputs)
    }

    fn step<S: Storage>(&mut self, storage: &mut S, from: NodeId, message: Message) -> Outputs {
        match message {
            Message::Copy { commit, next } => {
                if let Some((_, entry)) = next.filter(|(index, _)| *index == self.last().next()) {
                    self.append(storage, entry);
                }
                self.commit = self.commit.max(commit);
                let last = self.last();
                let mut outputs = self.apply();
                outputs.push(Output::Send {
                    to: from,
                    message: Message::Have { last },
                });
                outputs
            }
            Message::Have { last } => {
                let before = self.have.insert(from, last);
                self.count();
                let mut outputs = self.apply();
                if before != Some(last) && last < self.last() {
                    outputs.push(self.copy(from));
                }
                outputs
            }
        }
    }

    fn on_timer<S: Storage>(&mut self, _storage: &mut S, timer: Timer) -> Outputs {
        if !self.leads() || timer != Timer::Heartbeat {
            return Vec::new();
        }
        // A single server has its majority at once.
        self.count();
        let mut outputs = self.apply();
        outputs.push(self.beat());
        outputs.extend(self.copies());
        outputs
    }

    fn propose<S: Storage>(
        &mut self,
        storage: &mut S,
        command: Command,
    ) -> Result<Outputs, NotLeader> {
        if !self.leads() {
            let leader = Some(PRIMARY);
            return Err(NotLeader { leader });
        }
        let payload = Payload::Command(command);
        self.append(
            storage,
            Entry {
                term: TERM,
                payload,
            },
        );
        Ok(self.copies())
    }

    fn confirm_leadership<S: Storage>(
        &mut self,
        _storage: &mut S,
        request: RequestId,
    ) -> Result<Outputs, NotLeader> {
        let read_index = self.commit;
        let confirmed = Output::LeadershipConfirmed {
            request,
            read_index,
        };
        let leader = Some(PRIMARY);
        self.leads()
            .then(|| vec![confirmed])
            .ok_or(NotLeader { leader })
    }

    fn status(&self) -> Status {
        let role = if self.leads() {
            Role::Leader
        } else {
            Role::Follower
        };
        Status {
            role,
            term: TERM,
            leader: Some(PRIMARY),
            commit_index: self.commit,
        }
    }

    fn message_kind(message: &Message) -> &'static str {
        match message {
            Message::Copy { .. } => "Copy",
            Message::Have { .. } => "Have",
        }
    }

    fn entry_count(message: &Message) -> usize {
        match message {
            Message::Copy { next, .. } => usize::from(next.is_some()),
            Message::Have { .. } => 0,
        }
    }
}
