//! A run at a port, driven call by call.

use std::collections::VecDeque;

use node::{Config, Consensus, NodeId, NotLeader, RequestId, Role, Storage, Term, Timer};
use port::{
    Chaos, Drawn, ENTRY, Leader, Limits, Metrics, Port, Refused as _, Run, Settings, Violation,
    area_length, kinds,
};

use crate::disk::Disk;
use crate::plan::{Driver, Fault};
use crate::stop::{Capacity, NodeFault, Raised, Refused, Stop, about};
use crate::watch::{Happening, Watch};
use crate::{run, stop};

/// Violations that a run keeps.
const KEPT: u64 = 32;

/// A server: its node while it runs, and its storage.
pub(crate) struct Server<N> {
    pub(crate) node: Option<N>,
    pub(crate) disk: Disk,
    /// The last index of a server that was cut, whose disk is read again when it starts.
    pub(crate) last: u64,
    /// What a watch was told: whether it runs, and its role and term.
    pub(crate) running: bool,
    pub(crate) shown: Option<(Role, Term)>,
}

impl<N> Default for Server<N> {
    fn default() -> Self {
        Server {
            node: None,
            disk: Disk::default(),
            last: 0,
            running: false,
            shown: None,
        }
    }
}

/// A run of nodes of type `N` at a port of type `P`. It owns the area.
pub struct Simulation<N, P, W = ()> {
    pub(crate) port: P,
    pub(crate) area: Vec<u8>,
    pub(crate) buffer: Vec<u8>,
    pub(crate) settings: Settings,
    pub(crate) config: Config,
    pub(crate) cluster: Vec<NodeId>,
    pub(crate) servers: Vec<Server<N>>,
    pub(crate) watch: W,
    limits: Limits,
    seed: u64,
    /// Replies that were read, and the highest index among them.
    replies: u64,
    acknowledged: u64,
    /// For a watch: the time, the violations told, and the faults that are not due yet, by time.
    pub(crate) now: u64,
    told: u64,
    due: VecDeque<(u64, Fault)>,
}

impl<N: Consensus, P: Port, W: Watch> Simulation<N, P, W> {
    /// A run that is yet to be started, with its area.
    pub fn new(port: P, settings: &Settings, limits: &Limits, seed: u64, watch: W) -> Self {
        let servers = settings.servers.min(8);
        Simulation {
            port,
            area: vec![0; area_bytes(settings, limits)],
            buffer: vec![0; limits.message.max(limits.payload).min(1 << 12) as usize],
            settings: *settings,
            config: run::config(settings),
            cluster: (1..=servers).map(NodeId).collect(),
            servers: (0..servers).map(|_| Server::default()).collect(),
            watch,
            limits: *limits,
            seed,
            replies: 0,
            acknowledged: 0,
            now: 0,
            told: 0,
            due: VecDeque::new(),
        }
    }

    /// Starts the run, and every server that starts at time zero. It is called first, and once.
    ///
    /// # Errors
    ///
    /// Why the run cannot go on; so with every call below. Where the call itself was refused, there
    /// is no run to read.
    pub fn start(&mut self) -> Result<(), Stop> {
        let opened = (self.port).start(&mut self.area, &self.settings, &self.limits, self.seed);
        if opened.refusal != 0 {
            return Err(self.not_started(opened.refusal));
        }
        self.follow(opened.input).map(|_| ())
    }

    // ----- Running -------------------------------------------------------------------

    /// Takes one event that is due by the deadline, and follows it. Returns whether there was one.
    pub fn step(&mut self, deadline: u64) -> Result<bool, Stop> {
        let stepped = (self.port).step(&mut self.area, deadline, &mut self.buffer);
        self.own("step", stepped.refusal)?;
        self.tell_step();
        let _ = self.follow(stepped.input)?;
        Ok(stepped.taken == 1)
    }

    /// Takes every event that is due by the deadline.
    pub fn run_until(&mut self, deadline: u64) -> Result<(), Stop> {
        while self.step(deadline)? {}
        Ok(())
    }

    /// Proposes a command at a server. The inner result is the server's answer.
    pub fn propose(&mut self, server: u64) -> Result<Result<(), NotLeader>, Stop> {
        let opened = self.port.propose(&mut self.area, server);
        self.own("propose", opened.refusal)?;
        self.answered(opened.input)
    }

    /// Fires a timer at a server; at a stopped one, nothing.
    pub fn fire_timer(&mut self, server: u64, timer: Timer) -> Result<(), Stop> {
        let number = timer_number(timer);
        let opened = self.port.fire_timer(&mut self.area, server, number);
        self.own("fire_timer", opened.refusal)?;
        self.follow(opened.input).map(|_| ())
    }

    /// Asks a server to confirm that it leads. The inner result is the server's answer.
    pub fn confirm_leadership(
        &mut self,
        server: u64,
        request: RequestId,
    ) -> Result<Result<(), NotLeader>, Stop> {
        let opened = self
            .port
            .confirm_leadership(&mut self.area, server, request.0);
        self.own("confirm_leadership", opened.refusal)?;
        self.answered(opened.input)
    }

    /// Follows a direct call's input; a stopped server has none, and names no leader.
    fn answered(&mut self, input: port::Input) -> Result<Result<(), NotLeader>, Stop> {
        if input.kind == kinds::input::NONE {
            return Ok(Err(NotLeader { leader: None }));
        }
        self.follow(input)
    }

    /// Schedules a fault.
    pub fn schedule(&mut self, at: u64, fault: &Fault) -> Result<(), Stop> {
        let Fault {
            kind,
            first,
            second,
            ref groups,
        } = *fault;
        let done = (self.port).schedule(&mut self.area, at, kind, first, second, groups);
        self.own("schedule", done.refusal)?;
        if W::WATCHES {
            let at = at.max(self.now);
            let place = self.due.partition_point(|(time, _)| *time <= at);
            self.due.insert(place, (at, fault.clone()));
        }
        Ok(())
    }

    /// Compares every pair of logs.
    pub fn check_log_matching(&mut self) -> Result<(), Stop> {
        let done = self.port.check_log_matching(&mut self.area);
        self.own("check_log_matching", done.refusal)?;
        self.tell_violations(0);
        Ok(())
    }

    /// Looks for the acknowledged commands.
    pub fn check_durability(&mut self) -> Result<(), Stop> {
        let done = self.port.check_durability(&mut self.area);
        self.own("check_durability", done.refusal)?;
        self.tell_violations(0);
        Ok(())
    }

    // ----- Reading -------------------------------------------------------------------

    /// Any read of the port: it is lent the area.
    pub fn read<A>(&mut self, ask: impl FnOnce(&mut P, &[u8]) -> A) -> A {
        ask(&mut self.port, &self.area)
    }

    /// The run as a whole: time, events, phase, and how many replies and violations there are.
    pub fn run(&mut self) -> Run {
        self.read(P::read_run)
    }

    /// The counters.
    pub fn metrics(&mut self) -> Metrics {
        self.read(P::read_metrics)
    }

    /// The running server that leads the highest term, and that term.
    pub fn leader(&mut self) -> Option<(NodeId, Term)> {
        let Leader {
            present,
            server,
            term,
            ..
        } = self.read(P::read_leader);
        (present == 1).then_some((NodeId(server), Term(term)))
    }

    /// The violations that are kept: the first 32.
    pub fn violations(&mut self) -> Vec<Violation> {
        let reported = self.run().violations;
        let kept = 0..reported.min(KEPT);
        kept.map(|place| self.read(|port, area| port.read_violation(area, place)))
            .collect()
    }

    /// The highest index that an acknowledged command has.
    pub fn acknowledged(&mut self) -> u64 {
        let arrived = self.run().replies;
        for place in self.replies..arrived {
            let reply = self.read(|port, area| port.read_reply(area, place));
            self.acknowledged = self.acknowledged.max(reply.index);
        }
        self.replies = arrived;
        self.acknowledged
    }

    /// The highest index that every server has applied since it last started.
    pub fn applied_by_all(&mut self) -> u64 {
        let servers = 1..=self.settings.servers;
        let applied = servers.map(|id| self.read(|port, area| port.read_applied(area, id)).index);
        applied.min().unwrap_or_default()
    }

    /// The highest index that any server's log holds.
    pub fn longest_log(&self) -> u64 {
        let servers = self.servers.iter();
        let last = servers.map(|server| server.disk.last_index().0.max(server.last));
        last.max().unwrap_or_default()
    }

    /// The watch, once the run is over.
    pub fn into_watch(self) -> W {
        self.watch
    }

    // ----- Refusals ------------------------------------------------------------------

    /// A call of the host itself.
    fn own(&mut self, call: &'static str, refusal: u64) -> Result<(), Stop> {
        match refusal {
            0 => Ok(()),
            kinds::refusal::ROOM => Err(self.full(call, 0)),
            _ => Err(Stop::Call(Refused { call, refusal })),
        }
    }

    /// A call in which something of a server's node is handed over.
    pub(crate) fn node(
        &mut self,
        call: &'static str,
        server: u64,
        refusal: u64,
    ) -> Result<(), Stop> {
        match refusal {
            0 => Ok(()),
            kinds::refusal::ROOM => Err(self.full(call, server)),
            _ => Err(self.fault(call, server, refusal, stop::about(call, refusal))),
        }
    }

    /// A node that broke its contract.
    pub(crate) fn fault(
        &mut self,
        call: &'static str,
        server: u64,
        refusal: u64,
        about: impl Into<String>,
    ) -> Stop {
        Stop::Node(NodeFault {
            seed: self.seed,
            time: self.run().now,
            server,
            call,
            refusal,
            about: about.into(),
        })
    }

    /// The start was refused: there is nothing to read. Only events can be too many for a table.
    fn not_started(&self, refusal: u64) -> Stop {
        let call = "start";
        let from = self.limits.events;
        if refusal == kinds::refusal::ROOM && from < Capacity::MOST {
            return Stop::Full(raised(Capacity::Events, from, call));
        }
        Stop::Call(Refused { call, refusal })
    }

    /// A table is full; or, where it is as large as can be, the node's run does not fit.
    fn full(&mut self, call: &'static str, server: u64) -> Stop {
        let capacity = self.full_table(call);
        let from = *capacity.of(&mut self.limits);
        if from >= Capacity::MOST {
            let refusal = kinds::refusal::ROOM;
            return self.fault(call, server, refusal, about(call, refusal));
        }
        Stop::Full(raised(capacity, from, call))
    }

    /// Which table had no room for a call: the queue, where the events that the call may add do not
    /// fit; else the history. Where both are full, the second shows when the run is made again.
    fn full_table(&mut self, call: &str) -> Capacity {
        let adds = match call {
            "write_hard_state" | "write_put" | "write_truncate" => return Capacity::Writes,
            "output_confirmed" | "output_lost" => return Capacity::History,
            // A message and its copy.
            "output_send" => 2,
            // The first commands of all clients, at the end of the last start.
            "end" => self.settings.clients.max(1),
            _ => 1,
        };
        if self.run().queued + adds > self.limits.events {
            Capacity::Events
        } else {
            Capacity::History
        }
    }

    // ----- Telling -------------------------------------------------------------------

    /// Tells the watch.
    pub(crate) fn tell(&mut self, server: u64, what: &Happening<'_>) {
        if W::WATCHES {
            self.watch.happened(self.now, server, what);
        }
    }

    /// After a step: the time, the faults that are due, and the servers that have stopped.
    fn tell_step(&mut self) {
        if !W::WATCHES {
            return;
        }
        self.now = self.run().now;
        while let Some((at, fault)) = self.due.pop_front_if(|(at, _)| *at <= self.now) {
            self.watch.happened(at, 0, &Happening::Fault(&fault));
        }
        for id in 1..=self.settings.servers {
            let status = self.read(|port, area| port.read_status(area, id));
            if self.servers[id as usize - 1].running && status.running == 0 {
                self.tell_stop(id);
            }
        }
    }

    /// A server has stopped.
    pub(crate) fn tell_stop(&mut self, id: u64) {
        let server = &mut self.servers[id as usize - 1];
        server.running = false;
        server.shown = None;
        self.tell(id, &Happening::Stopped);
    }

    /// The violations that are new, and kept.
    pub(crate) fn tell_violations(&mut self, server: u64) {
        if !W::WATCHES {
            return;
        }
        let kept = self.run().violations.min(KEPT);
        for place in self.told..kept {
            let violation = self.read(|port, area| port.read_violation(area, place));
            self.tell(server, &Happening::Violation(&violation));
        }
        self.told = kept;
    }
}

/// A doubled capacity.
fn raised(capacity: Capacity, from: u64, call: &'static str) -> Raised {
    Raised {
        capacity,
        from,
        to: (2 * from).clamp(1, Capacity::MOST),
        call,
    }
}

/// The area's length; where settings or limits are out of range, as short as can be, since the
/// start is refused before its length is asked for.
fn area_bytes(settings: &Settings, limits: &Limits) -> usize {
    let tables = [limits.events, limits.writes, limits.history];
    let fits = settings.servers <= 8
        && settings.clients <= 64
        && limits.log <= 1 << 10
        && limits.payload <= 1 << 8
        && limits.message <= 1 << 12
        && tables.iter().all(|places| *places <= Capacity::MOST);
    if fits {
        area_length(settings, limits) as usize
    } else {
        1 << 12
    }
}

pub(crate) fn timer_number(timer: Timer) -> u64 {
    match timer {
        Timer::Election => kinds::timer::ELECTION,
        Timer::Heartbeat => kinds::timer::HEARTBEAT,
    }
}

/// The calls of a plan.
impl<N: Consensus, P: Port, W: Watch> Driver for Simulation<N, P, W> {
    type Stop = Stop;

    fn step(&mut self, deadline: u64) -> Result<bool, Stop> {
        Simulation::step(self, deadline)
    }

    fn propose(&mut self, server: u64) -> Result<(), Stop> {
        Simulation::propose(self, server).map(|_| ())
    }

    fn fire_timer(&mut self, server: u64, timer: Timer) -> Result<(), Stop> {
        Simulation::fire_timer(self, server, timer)
    }

    fn confirm_leadership(&mut self, server: u64, request: u64) -> Result<(), Stop> {
        Simulation::confirm_leadership(self, server, RequestId(request)).map(|_| ())
    }

    fn schedule(&mut self, at: u64, fault: &Fault) -> Result<(), Stop> {
        Simulation::schedule(self, at, fault)
    }

    /// The list is made longer until the schedule fits.
    fn chaos_schedule(&mut self, chaos: &Chaos, generator: u64) -> Result<Vec<(u64, Fault)>, Stop> {
        let servers: Vec<u8> = self.cluster.iter().map(|id| id.0 as u8).collect();
        let mut list = vec![0; 64 * ENTRY];
        let mut drawn = Drawn::refused(kinds::refusal::ROOM);
        while drawn.refusal == kinds::refusal::ROOM && list.len() <= LONGEST_LIST {
            list.resize(2 * list.len(), 0);
            let mut generator = generator;
            drawn = (self.port).chaos_schedule(&servers, chaos, &mut generator, &mut list);
        }
        if drawn.refusal != 0 {
            let (call, refusal) = ("chaos_schedule", drawn.refusal);
            return Err(Stop::Call(Refused { call, refusal }));
        }
        let entries = list.chunks_exact(ENTRY).take(drawn.count as usize);
        Ok(entries.map(scheduled).collect())
    }

    fn check_log_matching(&mut self) -> Result<(), Stop> {
        Simulation::check_log_matching(self)
    }

    fn check_durability(&mut self) -> Result<(), Stop> {
        Simulation::check_durability(self)
    }

    fn now(&mut self) -> u64 {
        self.run().now
    }

    fn leader(&mut self) -> Option<u64> {
        Simulation::leader(self).map(|(id, _)| id.0)
    }

    fn longest_log(&mut self) -> u64 {
        Simulation::longest_log(self)
    }

    fn acknowledged(&mut self) -> u64 {
        Simulation::acknowledged(self)
    }

    fn applied_by_all(&mut self) -> u64 {
        Simulation::applied_by_all(self)
    }
}

/// The longest list of a schedule that is tried, in bytes: more faults than any queue holds.
const LONGEST_LIST: usize = 65_536 * ENTRY;

/// An entry of a schedule's list.
fn scheduled(entry: &[u8]) -> (u64, Fault) {
    let mut words = [0; 4];
    for (word, bytes) in words.iter_mut().zip(entry.as_chunks::<8>().0) {
        *word = u64::from_le_bytes(*bytes);
    }
    let [at, kind, first, second] = words;
    (at, Fault::listed(kind, first, second))
}
