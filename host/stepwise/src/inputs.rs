//! The open input: simulation.rs's `start_server`, `input` and `finish_input`, in pieces.

use std::time::Duration;

use consensus::{LogIndex, NodeId, Payload, RequestId, Status, Storage};
use port::{Input, kinds};
use sim::leaves::{self, Route, TrackedStorage};
use sim::{Confirmation, Stream, stream_seed};

use crate::state::{Event, Kind, Open, Owed, Proposer, Server, State};

impl State {
    // ----- Opening -------------------------------------------------------------------

    /// Opens an input. The state is then up to the node.
    pub(crate) fn open(&mut self, slot: usize, kind: Kind) -> Input {
        self.open = Some(Open {
            slot,
            kind,
            sealed: false,
            refused: None,
        });
        self.waiting = 0;
        let server = &self.servers[slot];
        let (id, incarnation) = (server.id, server.incarnation);
        let (kind, first, second, third) = match kind {
            Kind::Start => {
                let seed = stream_seed(self.seed, Stream::Server { id, incarnation });
                (kinds::input::START, incarnation.into(), seed, 0)
            }
            Kind::Message {
                from,
                length,
                entries,
            } => (kinds::input::MESSAGE, from, length, entries),
            Kind::Timer(timer) => (kinds::input::TIMER, timer, 0, 0),
            Kind::Proposal(Proposer::Direct { seq }) => {
                (kinds::input::PROPOSAL, leaves::DIRECT.into(), seq, 0)
            }
            Kind::Proposal(Proposer::Client { client, seq, .. }) => {
                (kinds::input::PROPOSAL, client as u64, seq, 0)
            }
            Kind::Confirmation { request } => (kinds::input::CONFIRMATION, request, 0, 0),
        };
        Input {
            kind,
            server: id.0,
            first,
            second,
            third,
        }
    }

    /// Opens an input at a running server; at a stopped one, none.
    pub(crate) fn open_if_running(&mut self, slot: usize, kind: Kind) -> Input {
        if self.running(slot) {
            self.open(slot, kind)
        } else {
            Input::default()
        }
    }

    pub(crate) fn restart(&mut self, slot: usize) -> Input {
        let server = &mut self.servers[slot];
        server.incarnation += 1;
        for generation in &mut server.timer_generation {
            *generation += 1;
        }
        server.next_apply = 1;
        self.open(slot, Kind::Start)
    }

    pub(crate) fn stop(&mut self, slot: usize) {
        let server = &mut self.servers[slot];
        server.status = None;
        server.storage.crash();
        server.pending.clear();
        server.crash_on_next_input = false;
        self.checker.on_stop(slot);
    }

    // ----- Writing -------------------------------------------------------------------

    fn opened(&self) -> Open {
        self.open.expect("an input is open")
    }

    fn open_server(&mut self) -> &mut Server {
        let slot = self.opened().slot;
        &mut self.servers[slot]
    }

    /// The storage of the open input's server, for one write.
    pub(crate) fn write(&mut self) -> &mut TrackedStorage {
        self.waiting += 1;
        &mut self.open_server().storage
    }

    /// Syncs or cuts. Returns what it did, and the owed start that follows a cut.
    pub(crate) fn seal(&mut self, refused: Option<Option<NodeId>>) -> (u64, Input) {
        let open = Open {
            sealed: true,
            refused,
            ..self.opened()
        };
        self.open = Some(open);
        if self.servers[open.slot].crash_on_next_input {
            self.stop(open.slot);
            return (kinds::seal::CUT, self.close());
        }
        let server = &mut self.servers[open.slot];
        let synced = server.storage.sync();
        if synced {
            self.metrics.fsyncs += 1;
            self.metrics.storage_bytes += server.storage.take_synced_bytes();
        }
        for index in server.storage.take_written() {
            self.checker
                .on_write(self.now, server.id, index, server.storage.mem());
        }
        let outcome = if synced {
            kinds::seal::SYNCED
        } else {
            kinds::seal::NOTHING
        };
        (outcome, Input::default())
    }

    // ----- Outputs -------------------------------------------------------------------

    pub(crate) fn send(&mut self, to: u64, message: &[u8], entries: u64) {
        let (from, to) = (self.open_server().id, NodeId(to));
        let bytes = if self.config.count_bytes {
            message.len() as u64
        } else {
            0
        };
        leaves::record_send(&mut self.metrics, from, bytes, entries);
        let Route::Delivered { delay, duplicate } = self.network.route(from, to) else {
            return;
        };
        for delay in duplicate.into_iter().chain([delay]) {
            let message = message.to_vec();
            let event = Event::Deliver {
                from,
                to,
                message,
                entries,
            };
            self.push(self.now + delay, event);
        }
    }

    pub(crate) fn raise_generation(&mut self, timer: u64) -> u64 {
        let generation = &mut self.open_server().timer_generation[timer as usize];
        *generation += 1;
        *generation
    }

    pub(crate) fn set_timer(&mut self, timer: u64, after: Duration) {
        let slot = self.opened().slot;
        let generation = self.raise_generation(timer);
        let event = Event::Timer {
            slot,
            timer,
            generation,
        };
        self.push(self.now + after, event);
    }

    pub(crate) fn apply(&mut self, index: LogIndex, payload: Payload) {
        let slot = self.opened().slot;
        let server = &mut self.servers[slot];
        let next = &mut server.next_apply;
        self.checker
            .on_apply(self.now, server.id, index, &payload, next);
        if index.0 == self.applied.len() as u64 + 1 {
            self.applied.push(payload.clone());
        }
        let Payload::Command(command) = &payload else {
            return;
        };
        let Some(key) = leaves::decode(command) else {
            return;
        };
        if server.pending.remove(&key) {
            let delay = self.network.delay();
            let (client, seq) = (key.0 as usize, key.1);
            let reply = Event::ClientReply { client, seq, index };
            self.push(self.now + delay, reply);
        }
    }

    pub(crate) fn confirmed(&mut self, request: u64, read_index: Option<LogIndex>) {
        let request = RequestId(request);
        self.confirmations.push(Confirmation {
            request,
            read_index,
        });
    }

    // ----- Closing -------------------------------------------------------------------

    pub(crate) fn end(&mut self, status: Status) -> Input {
        let slot = self.opened().slot;
        let server = &mut self.servers[slot];
        server.status = Some(status);
        let mem = server.storage.mem();
        self.checker
            .on_status(self.now, slot, server.id, status, mem);
        self.max_log_gaps = self.max_log_gaps.max(server.storage.gaps());
        self.close()
    }

    /// Redirects a client that was refused, and goes on with what is owed.
    fn close(&mut self) -> Input {
        let open = self.opened();
        self.open = None;
        if let (
            Kind::Proposal(Proposer::Client {
                client,
                seq,
                attempt,
            }),
            Some(leader),
        ) = (open.kind, open.refused)
        {
            let key = (client as u32, seq);
            self.servers[open.slot].pending.remove(&key);
            let delay = self.network.delay();
            let redirect = Event::ClientRedirect {
                client,
                attempt,
                leader,
            };
            self.push(self.now + delay, redirect);
        }
        self.go_on()
    }

    /// Opens the next owed input, if there is one.
    pub(crate) fn go_on(&mut self) -> Input {
        match self.owed {
            Owed::Nothing => Input::default(),
            Owed::Construction(slot) if slot < self.servers.len() => {
                self.owed = Owed::Construction(slot + 1);
                self.open(slot, Kind::Start)
            }
            Owed::Construction(_) => {
                self.owed = Owed::Nothing;
                self.start_clients();
                Input::default()
            }
            Owed::HealAll(first) => {
                for slot in first..self.servers.len() {
                    self.servers[slot].crash_on_next_input = false;
                    if !self.running(slot) {
                        self.owed = Owed::HealAll(slot + 1);
                        return self.restart(slot);
                    }
                }
                self.owed = Owed::Nothing;
                Input::default()
            }
        }
    }
}
