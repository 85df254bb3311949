//! A small Raft: elections, replication, commitment, leadership confirmation.
//!
//! Terms, votes and entries are written to storage in the input that makes them, as Figure 2 asks;
//! the driver syncs before it carries out the outputs.

use std::collections::{BTreeMap, BTreeSet};
use std::marker::PhantomData;

use serde::{Deserialize, Serialize};

use crate::{
    Command, Config, Consensus, Entry, HardState, LogIndex, NodeId, NotLeader, Output, Payload,
    RequestId, Rng, Role, Status, Storage, Term, Timer, Variant,
};

/// What servers say to one another.
#[derive(Debug, Clone, PartialEq, Eq, Hash, Serialize, Deserialize)]
pub enum Message {
    /// A candidate asks for a vote.
    RequestVote {
        /// The candidate's term.
        term: Term,
        /// The last index of its log.
        last_index: LogIndex,
        /// The term of its last entry.
        last_term: Term,
    },
    /// The answer to a request for a vote.
    Vote {
        /// The voter's term.
        term: Term,
        /// Whether it votes for the candidate.
        granted: bool,
    },
    /// A leader sends entries, or none as a heartbeat.
    AppendEntries {
        /// The leader's term.
        term: Term,
        /// The index before the entries.
        prev_index: LogIndex,
        /// The term of the entry there.
        prev_term: Term,
        /// The entries.
        entries: Vec<Entry>,
        /// The leader's commit index.
        commit: LogIndex,
        /// The number of this message among those of the leader in its term.
        round: u64,
    },
    /// The answer to entries.
    Appended {
        /// The follower's term.
        term: Term,
        /// Whether its log now agrees with the leader's up to `index`.
        success: bool,
        /// The index up to which it agrees, or from which the leader may try again.
        index: LogIndex,
        /// The number of the message that it answers, or 0.
        round: u64,
    },
}

impl Message {
    fn term(&self) -> Term {
        match self {
            Message::RequestVote { term, .. }
            | Message::Vote { term, .. }
            | Message::AppendEntries { term, .. }
            | Message::Appended { term, .. } => *term,
        }
    }
}

/// A leadership confirmation that waits for answers to messages after this one.
#[derive(Debug)]
struct Waiting {
    request: RequestId,
    read_index: LogIndex,
    round: u64,
}

/// What a leader knows of a follower.
#[derive(Debug, Clone, Copy)]
struct Progress {
    next: u64,
    matched: u64,
    /// The commit index that was last sent.
    told: u64,
    /// The number of the latest message that was sent.
    sent: u64,
    /// The number of the latest message that was answered.
    answered: u64,
}

/// A server.
#[derive(Debug)]
pub struct Raft<V> {
    id: NodeId,
    peers: Vec<NodeId>,
    config: Config,
    rng: Rng,
    role: Role,
    term: Term,
    vote: Option<NodeId>,
    leader: Option<NodeId>,
    commit: u64,
    applied: u64,
    votes: BTreeSet<NodeId>,
    progress: BTreeMap<NodeId, Progress>,
    /// The index of the entry with which this server began to lead.
    first_led: LogIndex,
    /// Messages sent as leader of this term.
    round: u64,
    waiting: Vec<Waiting>,
    outputs: Vec<Output<Message>>,
    variant: PhantomData<V>,
}

impl<V: Variant> Raft<V> {
    // ----- Small things --------------------------------------------------------------

    fn majority(&self) -> usize {
        self.peers.len().div_ceil(2) + 1
    }

    fn send(&mut self, to: NodeId, message: Message) {
        self.outputs.push(Output::Send { to, message });
    }

    fn set_timer(&mut self, timer: Timer) {
        let after = match timer {
            Timer::Election => self.config.election_timeout(&mut self.rng),
            Timer::Heartbeat => self.config.heartbeat_interval,
        };
        self.outputs.push(Output::SetTimer { timer, after });
    }

    fn cancel_timer(&mut self, timer: Timer) {
        self.outputs.push(Output::CancelTimer { timer });
    }

    fn save<S: Storage>(&self, storage: &mut S) {
        let voted_for = self.vote.filter(|_| !V::VOTE_NOT_SAVED);
        let term = self.term;
        if !V::TERM_NOT_SAVED {
            storage.set_hard_state(HardState { term, voted_for });
        }
    }

    fn term_at<S: Storage>(storage: &S, index: u64) -> Term {
        storage
            .entry(LogIndex(index))
            .map_or(Term::ZERO, |entry| entry.term)
    }

    fn append<S: Storage>(&mut self, storage: &mut S, payload: Payload) -> LogIndex {
        let index = storage.last_index().next();
        let term = self.term;
        storage.put(index, Entry { term, payload });
        index
    }

    fn apply_up_to<S: Storage>(&mut self, storage: &S, last: u64) {
        while self.applied < last {
            let index = LogIndex(self.applied + 1);
            let Some(entry) = storage.entry(index) else {
                return;
            };
            let payload = entry.payload.clone();
            self.outputs.push(Output::Apply { index, payload });
            self.applied += 1;
        }
    }

    // ----- Roles ---------------------------------------------------------------------

    /// Enters a higher term, or leaves candidacy for the leader of this one.
    fn follow<S: Storage>(&mut self, storage: &mut S, term: Term, leader: Option<NodeId>) {
        if term > self.term {
            self.term = term;
            self.vote = None;
            self.save(storage);
        }
        if self.role != Role::Follower {
            self.role = Role::Follower;
            self.cancel_timer(Timer::Heartbeat);
            self.set_timer(Timer::Election);
            for Waiting { request, .. } in std::mem::take(&mut self.waiting) {
                self.outputs.push(Output::LeadershipLost { request });
            }
        }
        self.leader = leader;
    }

    fn campaign<S: Storage>(&mut self, storage: &mut S) {
        self.role = Role::Candidate;
        self.term.0 += 1;
        self.vote = Some(self.id);
        self.leader = None;
        self.save(storage);
        self.votes = BTreeSet::from([self.id]);
        self.set_timer(Timer::Election);
        self.set_timer(Timer::Heartbeat);
        self.request_votes(storage);
        self.count_votes(storage);
    }

    /// Asks those that have not voted; asked again at each heartbeat, as requests may be lost.
    fn request_votes<S: Storage>(&mut self, storage: &S) {
        let last_index = storage.last_index();
        let message = Message::RequestVote {
            term: self.term,
            last_index,
            last_term: Self::term_at(storage, last_index.0),
        };
        for peer in self.peers.clone() {
            if !self.votes.contains(&peer) {
                self.send(peer, message.clone());
            }
        }
    }

    fn count_votes<S: Storage>(&mut self, storage: &mut S) {
        if self.votes.len() >= self.majority() {
            self.lead(storage);
        }
    }

    fn lead<S: Storage>(&mut self, storage: &mut S) {
        self.role = Role::Leader;
        self.leader = Some(self.id);
        let fresh = Progress {
            next: storage.last_index().0 + 1,
            matched: 0,
            told: 0,
            sent: 0,
            answered: 0,
        };
        self.progress = self.peers.iter().map(|&peer| (peer, fresh)).collect();
        self.round = 0;
        self.cancel_timer(Timer::Election);
        self.set_timer(Timer::Heartbeat);
        self.first_led = self.append(storage, Payload::Noop);
        self.send_all(storage);
        self.advance(storage);
    }

    // ----- Replication ---------------------------------------------------------------

    /// Sends to every follower, answered or not.
    fn send_all<S: Storage>(&mut self, storage: &S) {
        for peer in self.peers.clone() {
            self.send_entries(storage, peer);
        }
    }

    /// Sends to the followers that lack something and have answered the last message. Those that
    /// have not are sent to when they do, or with the next heartbeat.
    fn replicate<S: Storage>(&mut self, storage: &S) {
        let last = storage.last_index().0;
        for peer in self.peers.clone() {
            let progress = self.progress[&peer];
            let lacks = progress.next <= last || progress.told < self.commit;
            if lacks && progress.answered == progress.sent {
                self.send_entries(storage, peer);
            }
        }
    }

    fn send_entries<S: Storage>(&mut self, storage: &S, to: NodeId) {
        self.round += 1;
        let progress = self.progress.get_mut(&to).expect("a follower is a peer");
        progress.sent = self.round;
        progress.told = self.commit;
        let next = progress.next;
        let past = next + self.config.max_entries_per_message as u64;
        let entries = (next..past).map_while(|i| storage.entry(LogIndex(i)).cloned());
        let message = Message::AppendEntries {
            term: self.term,
            prev_index: LogIndex(next - 1),
            prev_term: Self::term_at(storage, next - 1),
            entries: entries.collect(),
            commit: LogIndex(self.commit),
            round: self.round,
        };
        self.send(to, message);
    }

    /// Commits the highest entry of this term that a majority holds.
    fn advance<S: Storage>(&mut self, storage: &S) {
        if V::APPLIES_EARLY {
            self.apply_up_to(storage, storage.last_index().0);
        }
        let mut held: Vec<u64> = self.progress.values().map(|p| p.matched).collect();
        held.push(storage.last_index().0);
        held.sort_unstable();
        let index = held[held.len() - self.majority()];
        if index > self.commit && Self::term_at(storage, index) == self.term {
            self.commit = index;
            self.apply_up_to(storage, index);
        }
    }

    /// Answers the confirmations that a majority has answered.
    fn confirm(&mut self) {
        let mut rounds: Vec<u64> = self.progress.values().map(|p| p.answered).collect();
        rounds.push(u64::MAX);
        rounds.sort_unstable();
        let answered = rounds[rounds.len() - self.majority()];
        let (done, still): (Vec<_>, Vec<_>) = std::mem::take(&mut self.waiting)
            .into_iter()
            .partition(|waiting| waiting.round < answered);
        self.waiting = still;
        for waiting in done {
            self.outputs.push(Output::LeadershipConfirmed {
                request: waiting.request,
                read_index: waiting.read_index,
            });
        }
    }

    // ----- Messages ------------------------------------------------------------------

    fn on_request_vote<S: Storage>(
        &mut self,
        storage: &mut S,
        from: NodeId,
        term: Term,
        last: (Term, LogIndex),
    ) {
        let own_last = storage.last_index();
        let own = (Self::term_at(storage, own_last.0), own_last);
        let free = self.vote.is_none_or(|vote| vote == from);
        let granted = term == self.term && free && last >= own;
        if granted {
            self.vote = Some(from);
            self.save(storage);
            self.set_timer(Timer::Election);
        }
        let term = self.term;
        self.send(from, Message::Vote { term, granted });
    }

    fn on_append<S: Storage>(
        &mut self,
        storage: &mut S,
        prev: (LogIndex, Term),
        entries: Vec<Entry>,
        commit: u64,
    ) -> (bool, LogIndex) {
        let (LogIndex(prev_index), prev_term) = prev;
        let last = storage.last_index().0;
        if prev_index > last || Self::term_at(storage, prev_index) != prev_term {
            return (false, LogIndex(prev_index.saturating_sub(1).min(last)));
        }
        let sent = prev_index + entries.len() as u64;
        for (index, entry) in (prev_index + 1..).map(LogIndex).zip(entries) {
            if storage
                .entry(index)
                .is_some_and(|held| held.term == entry.term)
            {
                continue;
            }
            if index <= storage.last_index() {
                storage.truncate(index);
            }
            storage.put(index, entry);
        }
        if V::TRUNCATES_TOO_FAR && storage.last_index().0 > sent {
            storage.truncate(LogIndex(sent + 1));
        }
        self.commit = self.commit.max(commit.min(sent));
        self.apply_up_to(storage, self.commit);
        (true, LogIndex(sent))
    }

    fn on_appended<S: Storage>(
        &mut self,
        storage: &S,
        from: NodeId,
        success: bool,
        index: LogIndex,
        round: u64,
    ) {
        let Some(progress) = self.progress.get_mut(&from) else {
            return;
        };
        progress.answered = progress.answered.max(round);
        if success {
            progress.matched = progress.matched.max(index.0);
            progress.next = progress.matched + 1;
        } else {
            progress.next = index.0.max(progress.matched) + 1;
        }
        self.confirm();
        self.advance(storage);
        self.replicate(storage);
    }

    fn take_outputs(&mut self) -> Vec<Output<Message>> {
        std::mem::take(&mut self.outputs)
    }
}

impl<V: Variant> Consensus for Raft<V> {
    type Message = Message;

    fn start<S: Storage>(
        id: NodeId,
        cluster: &[NodeId],
        config: &Config,
        seed: u64,
        storage: &mut S,
    ) -> (Self, Vec<Output<Message>>) {
        let saved = storage.hard_state();
        let mut node = Raft {
            id,
            peers: cluster.iter().copied().filter(|&peer| peer != id).collect(),
            config: config.clone(),
            rng: Rng::new(seed),
            role: Role::Follower,
            term: saved.term,
            vote: saved.voted_for,
            leader: None,
            commit: 0,
            applied: 0,
            votes: BTreeSet::new(),
            progress: BTreeMap::new(),
            first_led: LogIndex::ZERO,
            round: 0,
            waiting: Vec::new(),
            outputs: Vec::new(),
            variant: PhantomData,
        };
        node.set_timer(Timer::Election);
        let outputs = node.take_outputs();
        (node, outputs)
    }

    fn step<S: Storage>(
        &mut self,
        storage: &mut S,
        from: NodeId,
        message: Message,
    ) -> Vec<Output<Message>> {
        if message.term() > self.term {
            self.follow(storage, message.term(), None);
        }
        match message {
            Message::RequestVote {
                term,
                last_index,
                last_term,
            } => self.on_request_vote(storage, from, term, (last_term, last_index)),
            Message::Vote { term, granted } => {
                if granted && term == self.term && self.role == Role::Candidate {
                    self.votes.insert(from);
                    self.count_votes(storage);
                }
            }
            Message::AppendEntries {
                term,
                prev_index,
                prev_term,
                entries,
                commit,
                round,
            } => {
                // A message of an earlier term answers no round of this one.
                let mut answer = (false, LogIndex::ZERO, 0);
                if term == self.term {
                    self.follow(storage, term, Some(from));
                    self.set_timer(Timer::Election);
                    let prev = (prev_index, prev_term);
                    let (success, index) = self.on_append(storage, prev, entries, commit.0);
                    answer = (success, index, round);
                }
                let (success, index, round) = answer;
                let term = self.term;
                let message = Message::Appended {
                    term,
                    success,
                    index,
                    round,
                };
                self.send(from, message);
            }
            Message::Appended {
                term,
                success,
                index,
                round,
            } => {
                if term == self.term && self.role == Role::Leader {
                    self.on_appended(storage, from, success, index, round);
                }
            }
        }
        self.take_outputs()
    }

    fn on_timer<S: Storage>(&mut self, storage: &mut S, timer: Timer) -> Vec<Output<Message>> {
        match (timer, self.role) {
            (Timer::Election, Role::Follower | Role::Candidate) => self.campaign(storage),
            (Timer::Heartbeat, Role::Leader) => {
                self.set_timer(Timer::Heartbeat);
                self.send_all(storage);
            }
            (Timer::Heartbeat, Role::Candidate) => {
                self.set_timer(Timer::Heartbeat);
                self.request_votes(storage);
            }
            (Timer::Election, Role::Leader) | (Timer::Heartbeat, Role::Follower) => {}
        }
        self.take_outputs()
    }

    fn propose<S: Storage>(
        &mut self,
        storage: &mut S,
        command: Command,
    ) -> Result<Vec<Output<Message>>, NotLeader> {
        if self.role != Role::Leader {
            return Err(NotLeader {
                leader: self.leader,
            });
        }
        self.append(storage, Payload::Command(command));
        self.replicate(storage);
        self.advance(storage);
        Ok(self.take_outputs())
    }

    fn confirm_leadership<S: Storage>(
        &mut self,
        storage: &mut S,
        request: RequestId,
    ) -> Result<Vec<Output<Message>>, NotLeader> {
        if self.role != Role::Leader {
            return Err(NotLeader {
                leader: self.leader,
            });
        }
        // Before its first entry is committed, a leader does not know what is (Raft §8).
        self.waiting.push(Waiting {
            request,
            read_index: LogIndex(self.commit).max(self.first_led),
            round: self.round,
        });
        self.send_all(storage);
        self.confirm();
        Ok(self.take_outputs())
    }

    fn status(&self) -> Status {
        Status {
            role: self.role,
            term: self.term,
            leader: self.leader,
            commit_index: LogIndex(self.commit),
        }
    }

    fn message_kind(message: &Message) -> &'static str {
        match message {
            Message::RequestVote { .. } => "RequestVote",
            Message::Vote { .. } => "Vote",
            Message::AppendEntries { .. } => "AppendEntries",
            Message::Appended { .. } => "Appended",
        }
    }

    fn entry_count(message: &Message) -> usize {
        match message {
            Message::AppendEntries { entries, .. } => entries.len(),
            _ => 0,
        }
    }
}
