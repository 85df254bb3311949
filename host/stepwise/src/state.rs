//! The state of a run: simulation.rs's `Simulation`, with the open input and what is owed after it.

use std::collections::BTreeSet;
use std::time::Duration;

use consensus::{LogIndex, NodeId, Payload, Rng, Role, Status, Term};
use port::{Input, Limits, Settings, kinds};
use sim::leaves::{Checker, EventQueue, Network, TrackedStorage};
use sim::{Confirmation, Fault, Metrics, Reply, SimConfig, SimTime, Stream, stream_rng};

/// simulation.rs's `Event`, with a message as its bytes and its entries.
pub(crate) enum Event {
    Start {
        slot: usize,
    },
    Deliver {
        from: NodeId,
        to: NodeId,
        message: Vec<u8>,
        entries: u64,
    },
    Timer {
        slot: usize,
        timer: u64,
        generation: u64,
    },
    Fault(Fault),
    ClientSend {
        client: usize,
    },
    ClientArrive {
        slot: usize,
        client: usize,
        seq: u64,
        attempt: u64,
    },
    ClientRedirect {
        client: usize,
        attempt: u64,
        leader: Option<NodeId>,
    },
    ClientRetry {
        client: usize,
        attempt: u64,
    },
    ClientReply {
        client: usize,
        seq: u64,
        index: LogIndex,
    },
    ClientTimeout {
        client: usize,
        attempt: u64,
    },
}

/// simulation.rs's `Slot`, with the status that the node last gave in its place.
pub(crate) struct Server {
    pub id: NodeId,
    pub status: Option<Status>,
    pub storage: TrackedStorage,
    pub incarnation: u32,
    pub timer_generation: [u64; 2],
    pub crash_on_next_input: bool,
    pub next_apply: u64,
    pub pending: BTreeSet<(u32, u64)>,
}

/// client.rs's `Client`; `outstanding` is the sequence number and the time of the first sending.
pub(crate) struct Client {
    pub target: usize,
    pub next_seq: u64,
    pub attempt: u64,
    pub outstanding: Option<(u64, SimTime)>,
}

/// What opened an input.
#[derive(Clone, Copy)]
pub(crate) enum Kind {
    Start,
    Message {
        from: u64,
        length: u64,
        entries: u64,
    },
    Timer(u64),
    Proposal(Proposer),
    Confirmation {
        request: u64,
    },
}

impl Kind {
    /// Its number (`kinds::input`).
    pub(crate) fn number(self) -> u64 {
        match self {
            Kind::Start => kinds::input::START,
            Kind::Message { .. } => kinds::input::MESSAGE,
            Kind::Timer(_) => kinds::input::TIMER,
            Kind::Proposal(_) => kinds::input::PROPOSAL,
            Kind::Confirmation { .. } => kinds::input::CONFIRMATION,
        }
    }
}

/// Who proposes.
#[derive(Clone, Copy)]
pub(crate) enum Proposer {
    Direct {
        seq: u64,
    },
    Client {
        client: usize,
        seq: u64,
        attempt: u64,
    },
}

/// The open input.
#[derive(Clone, Copy)]
pub(crate) struct Open {
    pub slot: usize,
    pub kind: Kind,
    pub sealed: bool,
    /// The leader that a refusal named, or none; `None` where the node did not refuse.
    pub refused: Option<Option<NodeId>>,
}

/// What follows when the open input is closed.
#[derive(Clone, Copy)]
pub(crate) enum Owed {
    Nothing,
    /// Construction goes on with this server.
    Construction(usize),
    /// HealAll goes on with this server.
    HealAll(usize),
}

#[derive(Clone, Copy, PartialEq, Eq)]
pub(crate) enum Phase {
    Closed,
    Writing,
    Sending,
}

pub(crate) struct State {
    pub limits: Limits,
    pub config: SimConfig,
    pub seed: u64,
    pub now: SimTime,
    pub queue: EventQueue<Event>,
    pub queued: u64,
    pub servers: Vec<Server>,
    pub network: Network,
    pub clients: Vec<Client>,
    pub workload: Rng,
    pub metrics: Metrics,
    pub checker: Checker,
    /// The payloads that the checker has as applied.
    pub applied: Vec<Payload>,
    /// The replies, each with its client and its sequence number.
    pub replies: Vec<(Reply, (u64, u64))>,
    pub acknowledged: Vec<(LogIndex, Payload)>,
    pub confirmations: Vec<Confirmation>,
    pub max_log_gaps: u64,
    pub direct_seq: u64,
    pub events: u64,
    pub open: Option<Open>,
    /// Writes of the open input.
    pub waiting: u64,
    pub owed: Owed,
}

impl State {
    /// `with_observer`, up to the first server's start.
    pub(crate) fn start(settings: &Settings, limits: &Limits, seed: u64) -> (Self, Input) {
        let config = numbers::settings_of(settings);
        let mut workload = stream_rng(seed, Stream::Workload);
        let clients = (0..config.clients).map(|_| Client {
            target: workload.below(settings.servers) as usize,
            next_seq: 0,
            attempt: 0,
            outstanding: None,
        });
        let clients = clients.collect();
        let mut state = State {
            limits: *limits,
            seed,
            now: SimTime::ZERO,
            queue: EventQueue::default(),
            queued: 0,
            servers: (1..=settings.servers).map(Server::new).collect(),
            network: Network::new(config.one_way_delay, stream_rng(seed, Stream::Network)),
            checker: Checker::new(config.servers, config.raft_checks),
            config,
            clients,
            workload,
            metrics: Metrics::default(),
            applied: Vec::new(),
            replies: Vec::new(),
            acknowledged: Vec::new(),
            confirmations: Vec::new(),
            max_log_gaps: 0,
            direct_seq: 0,
            events: 0,
            open: None,
            waiting: 0,
            owed: Owed::Nothing,
        };
        let input = state.construct(settings.start_spread);
        (state, input)
    }

    fn construct(&mut self, spread: u64) -> Input {
        if spread == 0 {
            self.owed = Owed::Construction(0);
            return self.go_on();
        }
        let mut startup = stream_rng(self.seed, Stream::Startup);
        for slot in 0..self.servers.len() {
            let at = SimTime::ZERO + Duration::from_nanos(startup.below(spread));
            self.push(at, Event::Start { slot });
        }
        self.start_clients();
        Input::default()
    }

    pub(crate) fn start_clients(&mut self) {
        for client in 0..self.clients.len() {
            self.push(self.now, Event::ClientSend { client });
        }
    }

    pub(crate) fn push(&mut self, at: SimTime, event: Event) {
        self.queue.push(at, event);
        self.queued += 1;
    }

    pub(crate) fn schedule(&mut self, at: SimTime, fault: Fault) {
        self.push(at.max(self.now), Event::Fault(fault));
    }

    pub(crate) fn phase(&self) -> Phase {
        match self.open {
            None => Phase::Closed,
            Some(Open { sealed: false, .. }) => Phase::Writing,
            Some(Open { sealed: true, .. }) => Phase::Sending,
        }
    }

    pub(crate) fn refused(&self) -> bool {
        self.open.is_some_and(|open| open.refused.is_some())
    }

    pub(crate) fn open_kind(&self) -> Option<Kind> {
        self.open.map(|open| open.kind)
    }

    pub(crate) fn member(&self, server: u64) -> bool {
        (1..=self.servers.len() as u64).contains(&server)
    }

    pub(crate) fn server(&self, server: u64) -> &Server {
        &self.servers[server as usize - 1]
    }

    pub(crate) fn running(&self, slot: usize) -> bool {
        self.servers[slot].status.is_some()
    }

    /// Among leaders of the highest term, the last.
    pub(crate) fn leader(&self) -> Option<(NodeId, Term)> {
        let running = self.servers.iter();
        let statuses = running.filter_map(|server| Some((server.id, server.status?)));
        statuses
            .filter(|(_, status)| status.role == Role::Leader)
            .max_by_key(|(_, status)| status.term)
            .map(|(id, status)| (id, status.term))
    }

    pub(crate) fn check_log_matching(&mut self) {
        let servers = self.servers.iter();
        let logs: Vec<_> = servers.map(|s| (s.id, s.storage.mem())).collect();
        self.checker.check_log_matching(self.now, &logs);
    }

    pub(crate) fn check_durability(&mut self) {
        let servers = self.servers.iter();
        let applied: Vec<_> = servers.map(|s| (s.id, s.next_apply - 1)).collect();
        self.checker
            .check_durability(self.now, &self.acknowledged, &applied);
    }
}

impl Server {
    fn new(id: u64) -> Self {
        Server {
            id: NodeId(id),
            status: None,
            storage: TrackedStorage::default(),
            incarnation: 0,
            timer_generation: [0; 2],
            crash_on_next_input: false,
            next_apply: 1,
            pending: BTreeSet::new(),
        }
    }
}
