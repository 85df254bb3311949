//! One input: the node is started or called, and what it did is handed over.

use std::any::Any;
use std::panic::{AssertUnwindSafe, catch_unwind};
use std::time::Duration;

use node::{
    Command, Consensus, Entry, HardState, LogIndex, NodeId, NotLeader, Output, Payload, RequestId,
    Role, Status, Term, Timer, Wire,
};
use port::{Input, Port, kinds};

use crate::disk::{Disk, Write};
use crate::run;
use crate::simulation::{Server, Simulation, timer_number};
use crate::stop::Stop;
use crate::watch::{Happening, Opened, Watch};

/// What a node answers: its outputs, or that it does not lead.
type Answer<N> = Result<Vec<Output<<N as Consensus>::Message>>, NotLeader>;

/// An input as the node gets it.
enum Asked<M> {
    Start { seed: u64 },
    Message(NodeId, M),
    Timer(Timer),
    Proposal(Command),
    Confirmation(RequestId),
}

impl<M> Asked<M> {
    /// The node's function.
    fn name(&self) -> &'static str {
        match self {
            Asked::Start { .. } => "start",
            Asked::Message(..) => "step",
            Asked::Timer(_) => "on_timer",
            Asked::Proposal(_) => "propose",
            Asked::Confirmation(_) => "confirm_leadership",
        }
    }
}

impl<N: Consensus, P: Port, W: Watch> Simulation<N, P, W> {
    /// Makes an input and those that are owed after it. Returns the first one's answer.
    pub(crate) fn follow(&mut self, input: Input) -> Result<Result<(), NotLeader>, Stop> {
        if input.kind == kinds::input::NONE {
            return Ok(Ok(()));
        }
        let (mut next, answer) = self.input(input)?;
        while next.kind != kinds::input::NONE {
            (next, _) = self.input(next)?;
        }
        Ok(answer)
    }

    /// Makes one input. Returns the one that follows it, and whether the node refused.
    fn input(&mut self, input: Input) -> Result<(Input, Result<(), NotLeader>), Stop> {
        let id = input.server;
        if input.kind == kinds::input::START {
            let disk = self.found(id);
            let server = self.server(id);
            (server.disk, server.last) = (disk, 0);
        }
        let asked = self.asked(&input)?;
        let answer = self.ask(id, asked)?;
        self.hand_writes(id)?;
        let (next, refusal) = match self.seal(id, answer.as_ref().err())? {
            Some(next) => (next, answer.map(|_| ())),
            None => self.send_and_end(id, answer)?,
        };
        self.tell_violations(id);
        Ok((next, refusal))
    }

    fn server(&mut self, id: u64) -> &mut Server<N> {
        &mut self.servers[id as usize - 1]
    }

    // ----- The node ------------------------------------------------------------------

    /// What a server that starts finds: term, vote and every entry, read from the port.
    fn found(&mut self, id: u64) -> Disk {
        let state = self.read(|port, area| port.read_hard_state(area, id));
        let last = self.read(|port, area| port.read_log(area, id)).last;
        let mut disk = Disk {
            hard_state: HardState {
                term: Term(state.term),
                voted_for: (state.voted == 1).then_some(NodeId(state.vote)),
            },
            ..Disk::default()
        };
        for index in 1..=last {
            let held = self
                .port
                .read_entry(&self.area, id, index, &mut self.buffer);
            if held.present == 1 {
                let entry = Entry {
                    term: Term(held.term),
                    payload: payload_of(held.kind, &self.buffer[..held.length as usize]),
                };
                disk.log.insert(LogIndex(index), entry);
            }
        }
        disk
    }

    /// The input as the node gets it. A message that cannot be read is its sender's fault.
    fn asked(&mut self, input: &Input) -> Result<Asked<N::Message>, Stop> {
        let (first, second) = (input.first, input.second);
        let (asked, opened) = match input.kind {
            kinds::input::START => {
                let opened = Opened::Start { incarnation: first };
                (Asked::Start { seed: second }, opened)
            }
            kinds::input::MESSAGE => {
                let from = NodeId(first);
                let (message, kind) = self.received(first, second)?;
                let opened = Opened::Message {
                    from,
                    kind,
                    bytes: second,
                    entries: input.third,
                };
                (Asked::Message(from, message), opened)
            }
            kinds::input::TIMER => {
                let timer = timer_of(first);
                (Asked::Timer(timer), Opened::Timer { timer })
            }
            kinds::input::PROPOSAL => {
                let command = run::command(first, second, self.settings.command_bytes);
                let opened = Opened::Proposal {
                    client: first,
                    sequence: second,
                };
                (Asked::Proposal(command), opened)
            }
            _ => {
                let request = RequestId(first);
                (
                    Asked::Confirmation(request),
                    Opened::Confirmation { request },
                )
            }
        };
        self.tell(input.server, &Happening::Opened(opened));
        Ok(asked)
    }

    /// The message in the buffer, and its kind's name.
    fn received(&mut self, from: u64, length: u64) -> Result<(N::Message, &'static str), Stop> {
        let bytes = &self.buffer[..length as usize];
        let read = guarded(|| {
            let message = N::Message::from_bytes(bytes)?;
            let kind = N::message_kind(&message);
            Some((message, kind))
        });
        let about = match read {
            Ok(Some(message)) => return Ok(message),
            Ok(None) => "a message that it sent cannot be read again".to_string(),
            Err(about) => about,
        };
        Err(self.fault("from_bytes", from, 0, about))
    }

    /// Starts the node or calls it.
    fn ask(&mut self, id: u64, asked: Asked<N::Message>) -> Result<Answer<N>, Stop> {
        let name = asked.name();
        let (cluster, config) = (&self.cluster, &self.config);
        let server = &mut self.servers[id as usize - 1];
        let (slot, disk) = (&mut server.node, &mut server.disk);
        let called = guarded(|| {
            let asked = match asked {
                Asked::Start { seed } => {
                    let (node, outputs) = N::start(NodeId(id), cluster, config, seed, disk);
                    *slot = Some(node);
                    return Ok(outputs);
                }
                asked => asked,
            };
            let node = slot.as_mut().expect("an input is a running server's");
            match asked {
                Asked::Message(from, message) => Ok(node.step(disk, from, message)),
                Asked::Timer(timer) => Ok(node.on_timer(disk, timer)),
                Asked::Proposal(command) => node.propose(disk, command),
                Asked::Confirmation(request) => node.confirm_leadership(disk, request),
                Asked::Start { .. } => Ok(Vec::new()),
            }
        });
        called.map_err(|about| self.fault(name, id, 0, about))
    }

    // ----- Its writes ----------------------------------------------------------------

    fn hand_writes(&mut self, id: u64) -> Result<(), Stop> {
        let writes = std::mem::take(&mut self.server(id).disk.writes);
        for write in &writes {
            self.tell(id, &Happening::Wrote(write));
            self.hand_write(id, write)?;
        }
        // Kept until the seal tells what became of them.
        self.server(id).disk.writes = writes;
        Ok(())
    }

    fn hand_write(&mut self, id: u64, write: &Write) -> Result<(), Stop> {
        let (port, area) = (&mut self.port, &mut self.area);
        let (call, done) = match write {
            Write::HardState(HardState { term, voted_for }) => {
                let (voted, vote) = optional(*voted_for);
                let done = port.write_hard_state(area, term.0, voted, vote);
                ("write_hard_state", done)
            }
            Write::Put(index, Entry { term, payload }) => {
                let (kind, bytes) = payload_numbers(payload);
                let done = port.write_put(area, index.0, term.0, kind, bytes);
                ("write_put", done)
            }
            Write::Truncate(from) => ("write_truncate", port.write_truncate(area, from.0)),
        };
        self.node(call, id, done.refusal)
    }

    /// Seals the input. Returns what follows a cut; none where it was synced.
    fn seal(&mut self, id: u64, refusal: Option<&NotLeader>) -> Result<Option<Input>, Stop> {
        let writes = self.server(id).disk.writes.len();
        self.server(id).disk.writes.clear();
        let (hinted, leader) = optional(refusal.and_then(|refusal| refusal.leader));
        let refused = u64::from(refusal.is_some());
        let sealed = self.port.seal(&mut self.area, refused, hinted, leader);
        self.node("seal", id, sealed.refusal)?;
        self.tell(id, &sealing(sealed.outcome, writes));
        if let Some(NotLeader { leader }) = refusal {
            let leader = *leader;
            self.tell(id, &Happening::Refused { leader });
        }
        if sealed.outcome != kinds::seal::CUT {
            return Ok(None);
        }
        // A stopped server's storage is what was durable.
        let last = self.read(|port, area| port.read_log(area, id)).last;
        *self.server(id) = Server {
            last,
            ..Server::default()
        };
        self.tell_stop(id);
        Ok(Some(sealed.input))
    }

    // ----- Its outputs ---------------------------------------------------------------

    fn send_and_end(
        &mut self,
        id: u64,
        answer: Answer<N>,
    ) -> Result<(Input, Result<(), NotLeader>), Stop> {
        let refusal = match answer {
            Ok(outputs) => {
                for output in &outputs {
                    self.output(id, output)?;
                }
                Ok(())
            }
            Err(refusal) => Err(refusal),
        };
        Ok((self.end(id)?, refusal))
    }

    fn output(&mut self, id: u64, output: &Output<N::Message>) -> Result<(), Stop> {
        let (port, area) = (&mut self.port, &mut self.area);
        let (call, done) = match output {
            Output::Send { to, message } => return self.send(id, *to, message),
            Output::SetTimer { timer, after } => {
                let done = port.output_set_timer(area, timer_number(*timer), nanos(*after));
                ("output_set_timer", done)
            }
            Output::CancelTimer { timer } => {
                let done = port.output_cancel_timer(area, timer_number(*timer));
                ("output_cancel_timer", done)
            }
            Output::Apply { index, payload } => {
                let (kind, bytes) = payload_numbers(payload);
                (
                    "output_apply",
                    port.output_apply(area, index.0, kind, bytes),
                )
            }
            Output::LeadershipConfirmed {
                request,
                read_index,
            } => {
                let done = port.output_confirmed(area, request.0, read_index.0);
                ("output_confirmed", done)
            }
            Output::LeadershipLost { request } => {
                ("output_lost", port.output_lost(area, request.0))
            }
        };
        self.node(call, id, done.refusal)?;
        if W::WATCHES
            && let Some(told) = telling(output)
        {
            self.tell(id, &told);
        }
        Ok(())
    }

    fn send(&mut self, id: u64, to: NodeId, message: &N::Message) -> Result<(), Stop> {
        let made = guarded(|| {
            let entries = N::entry_count(message) as u64;
            (message.to_bytes(), entries, N::message_kind(message))
        });
        let (bytes, entries, kind) = made.map_err(|about| self.fault("to_bytes", id, 0, about))?;
        let done = (self.port).output_send(&mut self.area, to.0, &bytes, entries);
        self.node("output_send", id, done.refusal)?;
        let sent = Happening::Sent {
            to,
            kind,
            bytes: bytes.len() as u64,
            entries,
        };
        self.tell(id, &sent);
        Ok(())
    }

    /// Ends the input with the node's status. Returns the input that is owed next.
    fn end(&mut self, id: u64) -> Result<Input, Stop> {
        let node = self.server(id).node.as_ref();
        let node = node.expect("a synced input's server runs");
        let status = guarded(|| node.status());
        let status = status.map_err(|about| self.fault("status", id, 0, about))?;
        let (hinted, leader) = optional(status.leader);
        let (role, term, commit) = (
            role_number(status.role),
            status.term.0,
            status.commit_index.0,
        );
        let ended = (self.port).end(&mut self.area, role, term, hinted, leader, commit);
        self.node("end", id, ended.refusal)?;
        self.tell_status(id, status);
        Ok(ended.input)
    }

    fn tell_status(&mut self, id: u64, Status { role, term, .. }: Status) {
        let server = self.server(id);
        server.running = true;
        if server.shown.replace((role, term)) != Some((role, term)) {
            self.tell(id, &Happening::Status { role, term });
        }
    }
}

/// What a seal did to so many writes.
fn sealing<'a>(outcome: u64, writes: usize) -> Happening<'a> {
    match outcome {
        kinds::seal::SYNCED => Happening::Synced { writes },
        kinds::seal::CUT => Happening::Cut { writes },
        _ => Happening::NothingToSync,
    }
}

/// What is told of an output that is no message.
fn telling<M>(output: &Output<M>) -> Option<Happening<'_>> {
    Some(match output {
        Output::Send { .. } => return None,
        Output::SetTimer { timer, after } => Happening::TimerSet {
            timer: *timer,
            after: *after,
        },
        Output::CancelTimer { timer } => Happening::TimerCancelled { timer: *timer },
        Output::Apply { index, payload } => Happening::Applied {
            index: *index,
            payload,
        },
        Output::LeadershipConfirmed {
            request,
            read_index,
        } => Happening::Confirmed {
            request: *request,
            read_index: Some(*read_index),
        },
        Output::LeadershipLost { request } => Happening::Confirmed {
            request: *request,
            read_index: None,
        },
    })
}

/// Calls the node. A panic in it is its fault, and comes back as words.
fn guarded<A>(call: impl FnOnce() -> A) -> Result<A, String> {
    catch_unwind(AssertUnwindSafe(call))
        .map_err(|panic| format!("the node panicked: {}", words(&*panic)))
}

/// What a panic said.
fn words(panic: &(dyn Any + Send)) -> &str {
    let text = panic.downcast_ref::<&str>().copied();
    let owned = || panic.downcast_ref::<String>().map(String::as_str);
    text.or_else(owned).unwrap_or("without words")
}

fn optional(id: Option<NodeId>) -> (u64, u64) {
    id.map_or((0, 0), |NodeId(id)| (1, id))
}

/// Nanoseconds; what has no 64 bits is past every limit.
fn nanos(duration: Duration) -> u64 {
    u64::try_from(duration.as_nanos()).unwrap_or(u64::MAX)
}

fn role_number(role: Role) -> u64 {
    match role {
        Role::Follower => kinds::role::FOLLOWER,
        Role::Candidate => kinds::role::CANDIDATE,
        Role::Leader => kinds::role::LEADER,
    }
}

fn timer_of(timer: u64) -> Timer {
    match timer {
        kinds::timer::ELECTION => Timer::Election,
        _ => Timer::Heartbeat,
    }
}

fn payload_numbers(payload: &Payload) -> (u64, &[u8]) {
    match payload {
        Payload::Noop => (kinds::payload::NOOP, &[]),
        Payload::Command(command) => (kinds::payload::COMMAND, &command.0),
    }
}

fn payload_of(kind: u64, bytes: &[u8]) -> Payload {
    match kind {
        kinds::payload::NOOP => Payload::Noop,
        _ => Payload::Command(Command(bytes.to_vec())),
    }
}
