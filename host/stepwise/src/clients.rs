//! Clients: simulation.rs's `client_send` to `client_reply`.

use consensus::{LogIndex, NodeId, Payload};
use port::Input;
use sim::{Reply, leaves};

use crate::state::{Event, Kind, Proposer, State};

impl State {
    fn random_server(&mut self) -> usize {
        self.workload.below(self.servers.len() as u64) as usize
    }

    pub(crate) fn client_send(&mut self, client: usize) {
        let state = &mut self.clients[client];
        if state.outstanding.is_none() {
            state.outstanding = Some((state.next_seq, self.now));
            state.next_seq += 1;
            self.client_attempt(client);
        }
    }

    /// The delay is drawn before it is known whether there is anything to send.
    fn client_attempt(&mut self, client: usize) {
        let delay = self.network.delay();
        let state = &mut self.clients[client];
        let Some((seq, _)) = state.outstanding else {
            return;
        };
        state.attempt += 1;
        let (slot, attempt) = (state.target, state.attempt);
        let arrive = Event::ClientArrive {
            slot,
            client,
            seq,
            attempt,
        };
        self.push(self.now + delay, arrive);
        let timeout = Event::ClientTimeout { client, attempt };
        self.push(self.now + self.config.client_timeout, timeout);
    }

    pub(crate) fn client_arrive(
        &mut self,
        slot: usize,
        client: usize,
        seq: u64,
        attempt: u64,
    ) -> Input {
        if !self.running(slot) {
            return Input::default();
        }
        self.servers[slot].pending.insert((client as u32, seq));
        let proposer = Proposer::Client {
            client,
            seq,
            attempt,
        };
        self.open(slot, Kind::Proposal(proposer))
    }

    pub(crate) fn client_redirect(&mut self, client: usize, attempt: u64, leader: Option<NodeId>) {
        let state = &self.clients[client];
        if state.attempt != attempt || state.outstanding.is_none() {
            return;
        }
        match leader.filter(|id| self.member(id.0)) {
            Some(id) => {
                self.clients[client].target = id.0 as usize - 1;
                self.client_attempt(client);
            }
            None => {
                self.clients[client].target = self.random_server();
                let retry = Event::ClientRetry { client, attempt };
                self.push(self.now + self.config.client_backoff, retry);
            }
        }
    }

    pub(crate) fn client_retry(&mut self, client: usize, attempt: u64) {
        if self.clients[client].attempt == attempt {
            self.client_attempt(client);
        }
    }

    pub(crate) fn client_timeout(&mut self, client: usize, attempt: u64) {
        let state = &self.clients[client];
        if state.attempt == attempt && state.outstanding.is_some() {
            self.clients[client].target = self.random_server();
            self.client_attempt(client);
        }
    }

    pub(crate) fn client_reply(&mut self, client: usize, seq: u64, index: LogIndex) {
        let state = &mut self.clients[client];
        let Some((_, sent)) = state.outstanding.filter(|(held, _)| *held == seq) else {
            return;
        };
        let received = self.now;
        let reply = Reply {
            sent,
            received,
            index,
        };
        self.replies.push((reply, (client as u64, seq)));
        let command = leaves::encode(client as u32, seq, self.config.command_bytes);
        self.acknowledged.push((index, Payload::Command(command)));
        self.metrics.client_replies += 1;
        state.outstanding = None;
        state.attempt += 1;
        self.push(self.now, Event::ClientSend { client });
    }
}
