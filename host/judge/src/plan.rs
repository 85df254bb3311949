//! What a run is: settings, faults for a while, then quiet, then the checks.

use node::{Rng, Timer};
use port::{Chaos, Limits, Settings, kinds};

use crate::run::{Stream, stream_seed};

/// A millisecond in nanoseconds.
const MS: u64 = 1_000_000;

/// The first fault comes no earlier.
const FAULTS_BEGIN: u64 = 100 * MS;

/// The longest time to a quick restart.
const QUICK: u64 = 50 * MS;

/// How often power fails at every server at the end of a run with many clients, at most.
const POWER_FAILURES: u64 = 8;

/// Which faults a run has.
#[derive(Debug, Clone, Copy, PartialEq, Eq)]
pub struct Faults {
    /// The reference's chaos schedule: crashes between and during inputs, partitions, one-way
    /// links, loss, duplication, slow delivery.
    pub chaos: bool,
    /// More crashes, half of them during an input, with quick restarts.
    pub crashes: bool,
    /// Elections of two candidates at once, with crashes while the votes are on their way.
    pub contests: bool,
    /// Direct proposals, confirmations and timers.
    pub calls: bool,
}

impl Faults {
    /// Every one.
    pub const ALL: Faults = Faults {
        chaos: true,
        crashes: true,
        contests: true,
        calls: true,
    };

    /// None.
    pub const NONE: Faults = Faults {
        chaos: false,
        crashes: false,
        contests: false,
        calls: false,
    };
}

/// A run, but for its seed.
#[derive(Debug, Clone, PartialEq, Eq)]
pub struct Plan {
    /// The settings; servers and clients among them.
    pub settings: Settings,
    /// The sizes of the tables at first. L, P and M are the node's contract; Q, W and H are doubled
    /// where they are full.
    pub limits: Limits,
    /// The faults.
    pub faults: Faults,
    /// The simulated time, in nanoseconds: faults in the first three fifths, then quiet.
    pub time: u64,
    /// The time after that within which every server must have applied what was acknowledged.
    pub patience: u64,
    /// The events with which a run ends in any case.
    pub events: u64,
}

impl Default for Plan {
    /// Three servers, three clients, every fault, five seconds. The tables are as large as nearly all
    /// runs need: each call looks at the whole area, so that larger ones cost time.
    fn default() -> Self {
        Plan {
            settings: Settings {
                servers: 3,
                heartbeat_interval: 30 * MS,
                election_timeout_min: 150 * MS,
                election_timeout_max: 200 * MS,
                max_entries_per_message: 8,
                max_entries_in_flight: 1_024,
                one_way_delay: 7_500_000,
                clients: 3,
                command_bytes: 16,
                client_timeout: 500 * MS,
                client_backoff: 50 * MS,
                count_bytes: 1,
                raft_checks: 1,
                start_spread: 0,
            },
            limits: Limits {
                log: 384,
                payload: 16,
                message: 256,
                events: 256,
                writes: 64,
                history: 512,
            },
            faults: Faults::ALL,
            time: 5_000 * MS,
            patience: 5_000 * MS,
            events: 1_000_000,
        }
    }
}

impl Plan {
    /// When the faults end.
    fn faults_end(&self) -> u64 {
        self.time / 5 * 3
    }

    /// When the run is checked at the latest, unless many clients keep it busy.
    fn latest(&self) -> u64 {
        self.time.saturating_add(self.patience)
    }

    /// The log index at which a run is brought to its end, since the log has L places: each client
    /// may add some more by then.
    fn long_log(&self) -> u64 {
        let (places, clients) = (self.limits.log, self.settings.clients);
        places - (places / 8).max(4 * clients).min(places / 2)
    }

    /// The log index at which it ends in any case, so that none is put outside the log.
    fn longest_log(&self) -> u64 {
        self.limits.log - self.limits.log / 32
    }
}

/// A fault as the calls have it.
#[derive(Debug, Clone, PartialEq, Eq)]
pub struct Fault {
    /// What it is (`kinds::fault`).
    pub kind: u64,
    /// Its first number.
    pub first: u64,
    /// Its second number.
    pub second: u64,
    /// A partition's groups, one byte each; bit i is server i + 1.
    pub groups: Vec<u8>,
}

impl Fault {
    /// A fault with one number.
    pub fn of(kind: u64, first: u64) -> Self {
        Fault {
            kind,
            first,
            second: 0,
            groups: Vec::new(),
        }
    }

    /// A fault of a schedule's list, in which a partition's first number is its groups. Empty ones
    /// at the end block nothing.
    pub fn listed(kind: u64, first: u64, second: u64) -> Self {
        if kind != kinds::fault::PARTITION {
            return Fault {
                second,
                ..Fault::of(kind, first)
            };
        }
        let bytes = first.to_le_bytes();
        let groups = bytes.iter().rposition(|group| *group != 0);
        Fault {
            groups: bytes[..groups.map_or(0, |last| last + 1)].to_vec(),
            ..Fault::of(kind, 0)
        }
    }
}

/// What a plan drives: a run at a port, or the reference's simulation.
pub trait Driver {
    /// Why it cannot go on.
    type Stop;

    /// Takes one event that is due by the deadline. Returns whether there was one.
    fn step(&mut self, deadline: u64) -> Result<bool, Self::Stop>;

    /// Proposes a command at a server.
    fn propose(&mut self, server: u64) -> Result<(), Self::Stop>;

    /// Fires a timer at a server.
    fn fire_timer(&mut self, server: u64, timer: Timer) -> Result<(), Self::Stop>;

    /// Asks a server to confirm that it leads.
    fn confirm_leadership(&mut self, server: u64, request: u64) -> Result<(), Self::Stop>;

    /// Schedules a fault.
    fn schedule(&mut self, at: u64, fault: &Fault) -> Result<(), Self::Stop>;

    /// Draws a schedule of faults for the cluster, with a generator of this state.
    fn chaos_schedule(
        &mut self,
        chaos: &Chaos,
        generator: u64,
    ) -> Result<Vec<(u64, Fault)>, Self::Stop>;

    /// Compares every pair of logs.
    fn check_log_matching(&mut self) -> Result<(), Self::Stop>;

    /// Looks for the acknowledged commands.
    fn check_durability(&mut self) -> Result<(), Self::Stop>;

    /// The time.
    fn now(&mut self) -> u64;

    /// The server that leads.
    fn leader(&mut self) -> Option<u64>;

    /// The highest index that any server's log holds.
    fn longest_log(&mut self) -> u64;

    /// The highest index that an acknowledged command has.
    fn acknowledged(&mut self) -> u64;

    /// The highest index that every server has applied since it last started.
    fn applied_by_all(&mut self) -> u64;
}

/// Makes the run of a plan and a seed: faults, then quiet, then the checks. Returns whether
/// durability was checked: not, where it could only have been told that the run is not over.
///
/// # Errors
///
/// Why the run could not go on.
pub fn drive<D: Driver>(plan: &Plan, seed: u64, driver: &mut D) -> Result<bool, D::Stop> {
    let mut driven = Driven {
        plan,
        driver,
        rng: Rng::new(stream_seed(seed, Stream::Scenario)),
        events: 0,
    };
    driven.schedule(seed)?;
    driven.faults()?;
    let settled = driven.quiet()? != End::Busy;
    driver.check_log_matching()?;
    if settled {
        driver.check_durability()?;
    }
    Ok(settled)
}

/// How a run comes to its end.
#[derive(Debug, Clone, Copy, PartialEq, Eq)]
enum End {
    /// Every server has applied what was acknowledged.
    CaughtUp,
    /// A server does not come to apply what was acknowledged long ago: the check says which.
    Stuck,
    /// The log or the plan's events are used up, or clients are acknowledged faster than the last
    /// server applies: that a server is behind shows no mistake.
    Busy,
}

/// A run that is being made, with the choices that are left.
struct Driven<'a, D> {
    plan: &'a Plan,
    driver: &'a mut D,
    rng: Rng,
    /// Events taken.
    events: u64,
}

impl<D: Driver> Driven<'_, D> {
    // ----- Choices -------------------------------------------------------------------

    /// True once in `n` draws.
    fn one_in(&mut self, n: u64) -> bool {
        self.rng.below(n) == 0
    }

    /// A number below a bound; 0 where there is none.
    fn below(&mut self, bound: u64) -> u64 {
        self.rng.below(bound.max(1))
    }

    fn pick(&mut self, choices: [u64; 3]) -> u64 {
        choices[self.rng.below(3) as usize]
    }

    fn server(&mut self) -> u64 {
        1 + self.below(self.plan.settings.servers)
    }

    // ----- Faults --------------------------------------------------------------------

    /// The reference's chaos, and crashes with quick restarts.
    fn schedule(&mut self, seed: u64) -> Result<(), D::Stop> {
        let end = self.plan.faults_end();
        let chaos = Chaos {
            start: FAULTS_BEGIN.min(end),
            end,
            mean_gap: self.pick([60, 150, 400]) * MS,
            max_duration: self.pick([50, 200, 600]) * MS,
        };
        if self.plan.faults.chaos {
            let generator = stream_seed(seed, Stream::Faults);
            for (at, fault) in self.driver.chaos_schedule(&chaos, generator)? {
                self.driver.schedule(at, &fault)?;
            }
        }
        if self.plan.faults.crashes {
            for _ in 0..self.below(24) {
                self.crash(end)?;
            }
            // Whoever is down comes back.
            self.driver
                .schedule(end, &Fault::of(kinds::fault::HEAL_ALL, 0))?;
        }
        Ok(())
    }

    /// A crash, between inputs or during one, and a quick restart.
    fn crash(&mut self, end: u64) -> Result<(), D::Stop> {
        let at = self.below(end.saturating_sub(QUICK));
        let id = self.server();
        let kind = if self.one_in(2) {
            kinds::fault::CRASH
        } else {
            kinds::fault::CRASH_DURING_NEXT_INPUT
        };
        let back = at + self.below(QUICK);
        self.driver.schedule(at, &Fault::of(kind, id))?;
        self.driver
            .schedule(back, &Fault::of(kinds::fault::RESTART, id))
    }

    /// Two candidates at once, and crashes with quick restarts of the others while the votes are on
    /// their way: who does not remember its vote has a second one.
    fn contest(&mut self, now: u64) -> Result<(), D::Stop> {
        let servers = self.plan.settings.servers;
        let delay = self.plan.settings.one_way_delay;
        let first = self.server();
        let second = 1 + first % servers;
        for id in 1..=servers {
            if id == first || id == second {
                self.driver.fire_timer(id, Timer::Election)?;
            } else if !self.one_in(4) {
                let at = now + delay / 2 + self.below(delay);
                let back = at + self.below(delay / 8);
                self.driver
                    .schedule(at, &Fault::of(kinds::fault::CRASH, id))?;
                self.driver
                    .schedule(back, &Fault::of(kinds::fault::RESTART, id))?;
            }
        }
        Ok(())
    }

    fn direct_call(&mut self) -> Result<(), D::Stop> {
        let leader = self.driver.leader();
        let anyone = self.server();
        let server = leader.filter(|_| self.one_in(2)).unwrap_or(anyone);
        match self.below(5) {
            0 => self.driver.fire_timer(server, Timer::Heartbeat),
            1 => self.driver.fire_timer(anyone, Timer::Election),
            2 | 3 => {
                let request = self.below(1_000);
                self.driver.confirm_leadership(server, request)
            }
            _ => self.driver.propose(server),
        }
    }

    // ----- Phases --------------------------------------------------------------------

    /// One event by the deadline. Returns false where none was due, or the run has had enough.
    fn step(&mut self, deadline: u64) -> Result<bool, D::Stop> {
        self.events += 1;
        let goes_on = self.events <= self.plan.events;
        Ok(goes_on && self.driver.step(deadline)?)
    }

    /// Up to the end of the faults. Time goes from contest to contest.
    fn faults(&mut self) -> Result<(), D::Stop> {
        let end = self.plan.faults_end();
        let mut contest = if self.plan.faults.contests { 0 } else { end };
        while !self.long_log() {
            if self.step(contest.min(end))? {
                if self.plan.faults.calls && self.one_in(24) {
                    self.direct_call()?;
                }
                if self.one_in(512) {
                    self.driver.check_log_matching()?;
                }
            } else if contest < end && self.events <= self.plan.events {
                self.contest(contest)?;
                contest += 60 * MS + self.below(200 * MS);
            } else {
                break;
            }
        }
        Ok(())
    }

    /// No more faults but those that are due: until every server has applied what was acknowledged,
    /// or patience is over, or a log is long.
    fn quiet(&mut self) -> Result<End, D::Stop> {
        while !self.long_log() && self.step(self.plan.time)? {}
        if self.long_log() || self.events > self.plan.events {
            return self.settle();
        }
        let before = self.driver.acknowledged();
        while !self.caught_up() {
            if self.long_log() {
                return self.settle();
            }
            if !self.step(self.plan.latest())? {
                return self.out_of_patience(before);
            }
        }
        Ok(End::CaughtUp)
    }

    /// A server that has not applied what was acknowledged before all this is stuck.
    fn out_of_patience(&mut self, before: u64) -> Result<End, D::Stop> {
        let enough = self.events > self.plan.events;
        if !enough && self.driver.applied_by_all() < before {
            return Ok(End::Stuck);
        }
        self.settle()
    }

    /// Where many clients leave no moment in which all servers have caught up: power fails at every
    /// server, some times in a row. Until there is a leader again nothing is acknowledged, and what
    /// was is applied again by all.
    fn settle(&mut self) -> Result<End, D::Stop> {
        for _ in 0..POWER_FAILURES {
            let settings = &self.plan.settings;
            let back = self.driver.now() + 2 * settings.one_way_delay;
            let deadline = back + 4 * settings.election_timeout_max + 20 * settings.one_way_delay;
            for id in 1..=settings.servers {
                self.driver
                    .schedule(0, &Fault::of(kinds::fault::CRASH, id))?;
            }
            self.driver
                .schedule(back, &Fault::of(kinds::fault::HEAL_ALL, 0))?;
            while self.step(deadline)? {
                if self.driver.longest_log() >= self.plan.longest_log() {
                    return Ok(End::Busy);
                }
                if self.caught_up() {
                    return Ok(End::CaughtUp);
                }
            }
        }
        Ok(End::Busy)
    }

    /// Whether every server has applied what was acknowledged.
    fn caught_up(&mut self) -> bool {
        self.driver.acknowledged() <= self.driver.applied_by_all()
    }

    /// Whether a log is so long that the run is brought to its end.
    fn long_log(&mut self) -> bool {
        self.driver.longest_log() >= self.plan.long_log()
    }
}
