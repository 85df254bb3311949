//! Calls with any arguments: mostly such as belong to the run, else at the edges of their ranges and past them.

use compare::plan::Plan;
use port::kinds::{fault, phase};
use port::{Chaos, Limits, Settings};
use trace::Call;

/// The longest duration, and the latest time, of document 01.
const LONGEST: u64 = 1 << 40;
const LATEST: u64 = 1 << 62;

/// Where ranges end.
const EDGES: [u64; 22] = [
    0,
    1,
    2,
    3,
    8,
    9,
    11,
    12,
    64,
    65,
    256,
    65_536,
    65_537,
    (1 << 32) - 1,
    1 << 32,
    LONGEST,
    LONGEST + 1,
    LATEST,
    LATEST + 1,
    1 << 63,
    u64::MAX - 1,
    u64::MAX,
];

/// Numbers of the calls that belong to a phase, the usual ones several times.
const CLOSED: [u64; 14] = [2, 2, 2, 2, 2, 2, 2, 2, 3, 4, 5, 6, 6, 18];
const WRITING: [u64; 8] = [7, 8, 8, 8, 9, 10, 10, 10];
const SENDING: [u64; 10] = [11, 11, 12, 13, 14, 14, 15, 16, 17, 17];

/// Who makes the calls, and what is known of the run.
pub struct Hostile {
    /// The choices.
    pub plan: Plan,
    /// How the run was started.
    pub settings: Settings,
    /// Its limits.
    pub limits: Limits,
    /// Its time.
    pub now: u64,
    /// The client and sequence number of the last proposal.
    pub key: (u64, u64),
    /// One argument in so many is hostile.
    pub wild: u64,
}

impl Hostile {
    /// A call in this phase, mostly one that belongs to it.
    pub fn call(&mut self, phase: u64) -> Call {
        let here: &[u64] = match phase {
            phase::CLOSED => &CLOSED,
            phase::WRITING => &WRITING,
            _ => &SENDING,
        };
        let number = match self.plan.below(16) {
            0 => 1 + self.plan.below(34),
            1..4 => self
                .plan
                .pick(&[20, 21, 22, 23, 24, 25, 26, 27, 28, 29, 30, 31, 32, 34]),
            4 if phase == phase::CLOSED => 19,
            _ => self.plan.pick(here),
        };
        self.numbered(number)
    }

    /// The call of this number.
    pub fn numbered(&mut self, number: u64) -> Call {
        match number {
            1 => self.start(),
            2..=6 => self.between_inputs(number),
            7..=10 => self.write(number),
            11..=17 => self.output(number),
            18 => Call::CheckLogMatching {},
            19 => Call::CheckDurability {},
            33 => self.schedule_list(),
            _ => self.read(number),
        }
    }

    /// The length of what is lent as a buffer, or as a list.
    pub fn buffer(&mut self, call: &Call) -> usize {
        if matches!(call, Call::ChaosSchedule { .. }) {
            return self.plan.pick(&[0, 31, 32, 33, 300, 4_096]);
        }
        let (m, p) = (self.limits.message as usize, self.limits.payload as usize);
        let edges = [0, m.saturating_sub(1), m, m + 1, p - 1, p, p + 1, 70_000];
        if self.is_wild() {
            self.plan.pick(&edges)
        } else {
            m.max(p)
        }
    }

    fn is_wild(&mut self) -> bool {
        self.plan.one_in(self.wild)
    }

    /// The number, or one at an edge, next to this bound, or any.
    fn number(&mut self, tame: u64, bound: u64) -> u64 {
        if !self.is_wild() {
            return tame;
        }
        let any = self.plan.any();
        let edge = self.plan.pick(&EDGES);
        let choices = [edge, bound, bound.wrapping_add(1), any];
        self.plan.pick(&choices)
    }

    /// A number up to a bound.
    fn up_to(&mut self, bound: u64) -> u64 {
        let tame = self.plan.below(bound + 1);
        self.number(tame, bound)
    }

    fn server(&mut self) -> u64 {
        let tame = 1 + self.plan.below(self.settings.servers);
        self.number(tame, self.settings.servers)
    }

    fn index(&mut self) -> u64 {
        let tame = 1 + self.plan.below(self.limits.log);
        self.number(tame, self.limits.log)
    }

    /// A duration, mostly a short one.
    fn duration(&mut self) -> u64 {
        let bound = self.plan.pick(&[1, 1_000, 50_000_000, LONGEST + 1]);
        let tame = self.plan.below(bound);
        self.number(tame, LONGEST)
    }

    /// A time, mostly not far from now.
    fn time(&mut self) -> u64 {
        let reach = self.plan.pick(&[1, 1_000_000, LONGEST]);
        let tame = (self.now + self.plan.below(reach)).min(LATEST);
        self.number(tame, LATEST)
    }

    /// Bytes of a length up to a bound, or just past it.
    fn bytes(&mut self, bound: u64) -> Vec<u8> {
        let long = self.plan.pick(&[bound + 1, bound + 8, 9_000]);
        let tame = self.plan.below(bound + 1);
        let length = self.plan.pick(&[0, 1.min(bound), tame, bound]);
        let length = if self.is_wild() { long } else { length };
        let byte = self.plan.any() as u8;
        vec![byte; length as usize]
    }

    /// A payload: a noop, some bytes, or the command of the last proposal.
    fn payload(&mut self) -> (u64, Vec<u8>) {
        let kind = self.up_to(1);
        if kind == 0 && !self.is_wild() {
            return (0, Vec::new());
        }
        if self.plan.one_in(2) {
            return (kind, self.bytes(self.limits.payload));
        }
        let mut command = (self.key.0 as u32).to_le_bytes().to_vec();
        command.extend(self.key.1.to_le_bytes());
        command.resize(12.max(self.settings.command_bytes as usize), 0);
        (kind, command)
    }

    /// The start of this run again, most often with something out of its range.
    fn start(&mut self) -> Call {
        let (mut settings, mut limits) = (self.settings, self.limits);
        let edge = self.number(7, 65_536);
        let s = &mut settings;
        let field = match self.plan.below(22) {
            0 => &mut s.servers,
            1 => &mut s.heartbeat_interval,
            2 => &mut s.election_timeout_min,
            3 => &mut s.election_timeout_max,
            4 => &mut s.max_entries_per_message,
            5 => &mut s.max_entries_in_flight,
            6 => &mut s.one_way_delay,
            7 => &mut s.clients,
            8 => &mut s.command_bytes,
            9 => &mut s.client_timeout,
            10 => &mut s.client_backoff,
            11 => &mut s.count_bytes,
            12 => &mut s.raft_checks,
            13 => &mut s.start_spread,
            14 => &mut limits.log,
            15 => &mut limits.payload,
            16 => &mut limits.message,
            17 => &mut limits.events,
            18 => &mut limits.writes,
            19 => &mut limits.history,
            _ => &mut self.now,
        };
        *field = edge;
        Call::Start {
            settings: Box::new(settings),
            limits: Box::new(limits),
            seed: self.plan.any(),
        }
    }

    fn between_inputs(&mut self, number: u64) -> Call {
        match number {
            2 => {
                let deadline = if self.plan.one_in(8) {
                    self.time()
                } else {
                    LATEST
                };
                let deadline = self.number(deadline, LATEST);
                Call::Step { deadline }
            }
            3 => {
                let server = self.server();
                Call::Propose { server }
            }
            4 => {
                let (server, timer) = (self.server(), self.up_to(1));
                Call::FireTimer { server, timer }
            }
            5 => {
                let (server, request) = (self.server(), self.up_to(8));
                Call::ConfirmLeadership { server, request }
            }
            _ => self.schedule(),
        }
    }

    fn schedule(&mut self) -> Call {
        let at = self.time();
        let kind = self.up_to(fault::HEAL_ALL);
        let first = match kind {
            fault::CRASH_LEADER => self.duration(),
            fault::SET_LOSS | fault::SET_DUPLICATION => self.up_to(1_200_000),
            fault::SET_DELAY_FACTOR => self.up_to(65_536),
            _ => self.server(),
        };
        let second = self.server();
        let members = ((1_u32 << self.settings.servers) - 1) as u8;
        let count = self.number(self.settings.servers, 8).min(20);
        let mask = if self.is_wild() { u8::MAX } else { members };
        let groups = (0..count).map(|_| self.plan.any() as u8 & mask).collect();
        Call::Schedule {
            at,
            fault: kind,
            first,
            second,
            groups,
        }
    }

    fn write(&mut self, number: u64) -> Call {
        let term = self.up_to(3);
        match number {
            7 => {
                let (voted, vote) = (self.up_to(1), self.server());
                Call::WriteHardState { term, voted, vote }
            }
            8 => {
                let (index, (kind, payload)) = (self.index(), self.payload());
                Call::WritePut {
                    index,
                    term,
                    kind,
                    payload,
                }
            }
            9 => {
                let from = self.index();
                Call::WriteTruncate { from }
            }
            _ => {
                let refused = u64::from(self.plan.one_in(6));
                let refused = self.number(refused, 1);
                let (hinted, leader) = (self.up_to(1), self.server());
                Call::Seal {
                    refused,
                    hinted,
                    leader,
                }
            }
        }
    }

    fn output(&mut self, number: u64) -> Call {
        match number {
            11 => {
                let (to, message) = (self.server(), self.bytes(self.limits.message));
                let entries = self.up_to(4);
                Call::OutputSend {
                    to,
                    message,
                    entries,
                }
            }
            12 => {
                let (timer, after) = (self.up_to(1), self.duration());
                Call::OutputSetTimer { timer, after }
            }
            13 => {
                let timer = self.up_to(1);
                Call::OutputCancelTimer { timer }
            }
            14 => {
                let (index, (kind, payload)) = (self.index(), self.payload());
                Call::OutputApply {
                    index,
                    kind,
                    payload,
                }
            }
            15 => {
                let (request, read_index) = (self.up_to(8), self.index());
                Call::OutputConfirmed {
                    request,
                    read_index,
                }
            }
            16 => {
                let request = self.up_to(8);
                Call::OutputLost { request }
            }
            _ => {
                let (role, term) = (self.up_to(2), self.up_to(3));
                let (hinted, leader, commit) = (self.up_to(1), self.server(), self.index());
                Call::End {
                    role,
                    term,
                    hinted,
                    leader,
                    commit,
                }
            }
        }
    }

    fn read(&mut self, number: u64) -> Call {
        let server = self.server();
        let index = self.index();
        let place = self.up_to(8);
        match number {
            20 => Call::ReadStatus { server },
            21 => Call::ReadHardState { server },
            22 => Call::ReadLog { server },
            23 => Call::ReadEntry { server, index },
            24 => Call::ReadLeader {},
            25 => Call::ReadApplied { server },
            26 => Call::ReadAppliedEntry { index },
            27 => Call::ReadMetrics {},
            28 => Call::ReadSentBy { server },
            29 => Call::ReadReply { place },
            30 => Call::ReadConfirmation { place },
            31 => Call::ReadViolation { place },
            32 => Call::ReadRun {},
            _ => Call::ReadSettings {},
        }
    }

    fn schedule_list(&mut self) -> Call {
        let count = self.number(3, 8).min(300);
        let servers = (0..count).map(|_| self.server() as u8).collect();
        let start = self.up_to(1_000_000);
        let (end, mean_gap, max_duration) = (self.time(), self.duration(), self.duration());
        let chaos = Chaos {
            start,
            end,
            mean_gap,
            max_duration,
        };
        let generator = self.plan.any();
        Call::ChaosSchedule {
            servers,
            chaos,
            generator,
            length: 0,
        }
    }
}
