//! Refused calls, put between the calls of a trace.
//!
//! Document 01's questions decide them, not the reference: each is a call that the first question
//! answered no refuses with its number, and that changes nothing, so that the run goes on as if
//! it had not been made.

use port::kinds::{self, fault, refusal};
use port::{Chaos, Input, Limits, Opened, Sealed, Settings, Stepped, area_length};

use crate::replay::PAST;
use crate::{Call, Exchange, Numbers, Trace};

/// Calls that a full table refuses, at most in one trace.
const FULL: usize = 64;

/// Puts a refused call behind each `every`th call, of another kind each time, and one where a
/// table is full.
pub fn with_refusals(trace: Trace, every: usize) -> Trace {
    let mut place = Place::default();
    let mut refused = Trace::default();
    let (mut turn, mut full) = (0, 0);
    for (number, exchange) in trace.exchanges.into_iter().enumerate() {
        place.follow(&exchange);
        refused.exchanges.push(exchange);
        let mut calls = Vec::new();
        if full < FULL {
            calls = place.full_tables();
            full += usize::from(!calls.is_empty());
        }
        if calls.is_empty() && number % every == 0 {
            calls = place.refused_calls();
        }
        if !calls.is_empty() {
            let (call, refusal) = calls.swap_remove(turn % calls.len());
            turn += 1;
            let answer = call.refused(refusal);
            refused.exchanges.push(Exchange { call, answer });
        }
    }
    refused
}

/// What decides which calls are refused.
#[derive(Default)]
struct Place {
    settings: Settings,
    limits: Limits,
    phase: Phase,
    /// Writes of the open input.
    waiting: u64,
    /// Confirmations so far.
    confirmations: u64,
    /// Events in the queue, where it has been read since the last call that can change it.
    queued: Option<u64>,
}

#[derive(Default, Clone, Copy, PartialEq, Eq)]
enum Phase {
    #[default]
    Closed,
    Writing {
        may_refuse: bool,
    },
    Sending {
        refused: bool,
    },
}

/// The phase after a call that opened this input, or none.
fn opened(input: &Input) -> Phase {
    match input.kind {
        kinds::input::NONE => Phase::Closed,
        kinds::input::PROPOSAL | kinds::input::CONFIRMATION => Phase::Writing { may_refuse: true },
        _ => Phase::Writing { may_refuse: false },
    }
}

impl Place {
    fn follow(&mut self, exchange: &Exchange) {
        if let Call::Start {
            settings, limits, ..
        } = &exchange.call
        {
            (self.settings, self.limits) = (**settings, **limits);
        }
        match (&exchange.call, &exchange.answer.numbers) {
            (_, Numbers::Run(run)) => self.queued = Some(run.queued),
            (call, _) if !call.reads() => self.queued = None,
            _ => {}
        }
        match &exchange.call {
            Call::WriteHardState { .. } | Call::WritePut { .. } | Call::WriteTruncate { .. } => {
                self.waiting += 1;
            }
            Call::Seal { .. } => self.waiting = 0,
            Call::OutputConfirmed { .. } | Call::OutputLost { .. } => self.confirmations += 1,
            _ => {}
        }
        match (&exchange.call, &exchange.answer.numbers) {
            (Call::Seal { refused, .. }, Numbers::Sealed(Sealed { outcome, input, .. })) => {
                self.phase = match *outcome {
                    kinds::seal::CUT => opened(input),
                    _ => Phase::Sending {
                        refused: *refused != 0,
                    },
                };
            }
            (_, Numbers::Opened(Opened { input, .. }))
            | (_, Numbers::Stepped(Stepped { input, .. })) => self.phase = opened(input),
            _ => {}
        }
    }

    /// Calls that are in order here, but find no room.
    fn full_tables(&self) -> Vec<(Call, u64)> {
        let mut calls = Vec::new();
        let writing = matches!(self.phase, Phase::Writing { .. });
        if writing && self.waiting == self.limits.writes {
            let hard_state = Call::WriteHardState {
                term: 1,
                voted: 0,
                vote: 0,
            };
            let put = Call::WritePut {
                index: 1,
                term: 1,
                kind: kinds::payload::NOOP,
                payload: Vec::new(),
            };
            calls.extend([hard_state, put, Call::WriteTruncate { from: 1 }]);
        }
        let carrying_out = self.phase == Phase::Sending { refused: false };
        if carrying_out && self.confirmations == self.limits.history {
            let (request, read_index) = (1, 1);
            calls.push(Call::OutputConfirmed {
                request,
                read_index,
            });
            calls.push(Call::OutputLost { request });
        }
        if self.phase == Phase::Closed && self.queued == Some(self.limits.events) {
            calls.push(Call::Schedule {
                at: 0,
                fault: fault::HEAL_LINKS,
                first: 0,
                second: 0,
                groups: Vec::new(),
            });
        }
        let refused = calls.into_iter().map(|call| (call, refusal::ROOM));
        refused.collect()
    }

    /// Calls that are refused here, with the numbers that refuse them.
    fn refused_calls(&self) -> Vec<(Call, u64)> {
        let mut calls = self.starts();
        calls.extend(self.reads());
        calls.extend(schedules());
        let closed = matches!(self.phase, Phase::Closed);
        let writing = matches!(self.phase, Phase::Writing { .. });
        let sending = matches!(self.phase, Phase::Sending { .. });
        let carrying_out = self.phase == Phase::Sending { refused: false };
        for (here, calls_here) in [
            (closed, self.between_inputs()),
            (writing, self.writes()),
            (carrying_out, self.outputs()),
            (sending, self.ends()),
        ] {
            let refusal = |number| if here { number } else { refusal::PHASE };
            calls.extend(calls_here.into_iter().map(|(call, n)| (call, refusal(n))));
        }
        calls
    }

    /// A server that is not in the cluster.
    fn stranger(&self) -> u64 {
        self.settings.servers + 1
    }

    fn start(&self, change: impl FnOnce(&mut Settings, &mut Limits), refusal: u64) -> (Call, u64) {
        let (mut settings, mut limits) = (self.settings, self.limits);
        change(&mut settings, &mut limits);
        let start = Call::Start {
            settings: Box::new(settings),
            limits: Box::new(limits),
            seed: 0,
        };
        (start, refusal)
    }

    fn starts(&self) -> Vec<(Call, u64)> {
        let long = (1 << 40) + 1;
        let mut starts = vec![
            self.start(|s, _| s.servers = 0, refusal::SERVERS),
            self.start(
                |s, _| (s.servers, s.heartbeat_interval) = (9, 0),
                refusal::SERVERS,
            ),
            self.start(|s, _| s.heartbeat_interval = 0, refusal::CONFIG),
            self.start(
                |s, _| (s.max_entries_in_flight, s.clients) = (0, 65),
                refusal::CONFIG,
            ),
            self.start(|s, _| s.clients = 65, refusal::SETTINGS),
            self.start(|s, _| s.one_way_delay = long, refusal::SETTINGS),
            self.start(|s, _| s.start_spread = u64::MAX, refusal::SETTINGS),
            self.start(|s, _| s.count_bytes = 2, refusal::SETTINGS),
            self.start(|s, l| s.command_bytes = l.payload + 1, refusal::SETTINGS),
            self.start(|_, l| l.log = 0, refusal::SETTINGS),
            self.start(|_, l| l.log = 1_025, refusal::SETTINGS),
            self.start(|_, l| l.payload = 257, refusal::SETTINGS),
            self.start(|_, l| l.message = 4_097, refusal::SETTINGS),
            self.start(|_, l| l.events = 65_537, refusal::SETTINGS),
            self.start(|_, l| l.writes = 0, refusal::SETTINGS),
            self.start(|_, l| l.history = u64::MAX, refusal::SETTINGS),
        ];
        // Where the limits are the largest, no start is too long for the area.
        let (events, message) = (65_536, 4_096);
        let longest = Limits {
            events,
            message,
            ..self.limits
        };
        let lent = area_length(&self.settings, &self.limits) + PAST as u64;
        if area_length(&self.settings, &longest) > lent {
            starts.push(self.start(|_, l| *l = longest, refusal::AREA));
        }
        starts
    }

    fn reads(&self) -> Vec<(Call, u64)> {
        let server = self.stranger();
        vec![
            (Call::ReadStatus { server: 0 }, refusal::SERVER),
            (Call::ReadHardState { server }, refusal::SERVER),
            (Call::ReadLog { server: u64::MAX }, refusal::SERVER),
            (Call::ReadEntry { server, index: 1 }, refusal::SERVER),
            (Call::ReadApplied { server }, refusal::SERVER),
            (Call::ReadSentBy { server: 0 }, refusal::SERVER),
        ]
    }

    fn between_inputs(&self) -> Vec<(Call, u64)> {
        let stranger = self.stranger();
        let late = (1 << 62) + 1;
        let schedule = |at, fault, first, second, groups: &[u8]| Call::Schedule {
            at,
            fault,
            first,
            second,
            groups: groups.to_vec(),
        };
        let propose = Call::Propose { server: stranger };
        let mut calls = vec![
            (Call::Step { deadline: late }, refusal::RANGE),
            (propose, refusal::SERVER),
            (
                Call::FireTimer {
                    server: 0,
                    timer: 2,
                },
                refusal::SERVER,
            ),
            (
                Call::FireTimer {
                    server: 1,
                    timer: 2,
                },
                refusal::RANGE,
            ),
            (
                Call::ConfirmLeadership {
                    server: stranger,
                    request: 0,
                },
                refusal::SERVER,
            ),
            (schedule(0, fault::CRASH, 0, 0, &[]), refusal::SERVER),
            (
                schedule(late, fault::RESTART, stranger, 0, &[]),
                refusal::SERVER,
            ),
            (schedule(0, fault::BLOCK, 1, stranger, &[]), refusal::SERVER),
            (schedule(late, fault::HEAL_ALL, 0, 0, &[]), refusal::RANGE),
            (schedule(0, fault::HEAL_ALL + 1, 0, 0, &[]), refusal::RANGE),
            (
                schedule(0, fault::CRASH_LEADER, (1 << 40) + 1, 0, &[]),
                refusal::RANGE,
            ),
            (
                schedule(0, fault::SET_LOSS, 1 << 32, 0, &[]),
                refusal::RANGE,
            ),
            (
                schedule(0, fault::SET_DUPLICATION, u64::MAX, 0, &[]),
                refusal::RANGE,
            ),
            (
                schedule(0, fault::SET_DELAY_FACTOR, 65_537, 0, &[]),
                refusal::RANGE,
            ),
            (schedule(0, fault::PARTITION, 0, 0, &[1; 9]), refusal::RANGE),
        ];
        if stranger <= 8 {
            let partition = schedule(late, fault::PARTITION, 0, 0, &[1, 0x80]);
            calls.push((partition, refusal::SERVER));
        }
        if self.phase != Phase::Closed {
            // They ask for nothing but the phase.
            calls.push((Call::CheckLogMatching {}, refusal::PHASE));
            calls.push((Call::CheckDurability {}, refusal::PHASE));
        }
        calls
    }

    fn writes(&self) -> Vec<(Call, u64)> {
        let put = |index, kind, length: u64| Call::WritePut {
            index,
            term: 0,
            kind,
            payload: vec![0; length as usize],
        };
        let seal = |refused, hinted| Call::Seal {
            refused,
            hinted,
            leader: 0,
        };
        let hard_state = Call::WriteHardState {
            term: 0,
            voted: 2,
            vote: 0,
        };
        let Limits { log, payload, .. } = self.limits;
        let mut calls = vec![
            (hard_state, refusal::RANGE),
            (put(0, 2, 0), refusal::INDEX),
            (put(log + 1, 0, 0), refusal::INDEX),
            (put(1, 2, 0), refusal::RANGE),
            (put(1, 0, 1), refusal::RANGE),
            (put(1, 1, payload + 1), refusal::RANGE),
            (seal(2, 0), refusal::RANGE),
        ];
        match self.phase {
            Phase::Writing { may_refuse: true } => calls.push((seal(1, 2), refusal::RANGE)),
            Phase::Writing { may_refuse: false } => calls.push((seal(1, 0), refusal::RANGE)),
            _ => calls.push((Call::WriteTruncate { from: 0 }, refusal::PHASE)),
        }
        calls
    }

    fn outputs(&self) -> Vec<(Call, u64)> {
        let send = |to, length: u64, entries| Call::OutputSend {
            to,
            message: vec![0; length as usize],
            entries,
        };
        let set_timer = |timer, after| Call::OutputSetTimer { timer, after };
        let apply = |index, kind, length: u64| Call::OutputApply {
            index,
            kind,
            payload: vec![0; length as usize],
        };
        let Limits {
            log,
            payload,
            message,
            ..
        } = self.limits;
        let mut calls = vec![
            (send(0, message + 1, 0), refusal::SERVER),
            (send(self.stranger(), 0, 0), refusal::SERVER),
            (send(1, message + 1, 0), refusal::RANGE),
            (send(1, 0, 1 << 32), refusal::RANGE),
            (set_timer(2, 0), refusal::RANGE),
            (set_timer(0, (1 << 40) + 1), refusal::RANGE),
            (Call::OutputCancelTimer { timer: 2 }, refusal::RANGE),
            (apply(log + 1, 2, 0), refusal::INDEX),
            (apply(0, 2, 0), refusal::RANGE),
            (apply(0, 0, 1), refusal::RANGE),
            (apply(1, 1, payload + 1), refusal::RANGE),
        ];
        if self.phase != (Phase::Sending { refused: false }) {
            let confirmed = Call::OutputConfirmed {
                request: 0,
                read_index: 0,
            };
            calls.push((confirmed, refusal::PHASE));
            calls.push((Call::OutputLost { request: 0 }, refusal::PHASE));
        }
        calls
    }

    fn ends(&self) -> Vec<(Call, u64)> {
        let end = |role, hinted| Call::End {
            role,
            term: 0,
            hinted,
            leader: 0,
            commit: 0,
        };
        vec![(end(3, 0), refusal::RANGE), (end(0, 2), refusal::RANGE)]
    }
}

/// Schedules, which no phase refuses, as they lend no area.
fn schedules() -> Vec<(Call, u64)> {
    let chaos = Chaos {
        start: 0,
        end: 1_000_000_000,
        mean_gap: 100_000_000,
        max_duration: 0,
    };
    let schedule = |servers: &[u8], chaos, length| Call::ChaosSchedule {
        servers: servers.to_vec(),
        chaos,
        generator: 7,
        length,
    };
    let late = Chaos {
        end: (1 << 62) + 1,
        ..chaos
    };
    let slow = Chaos {
        mean_gap: (1 << 40) + 1,
        ..chaos
    };
    let crowded = Chaos {
        mean_gap: 0,
        ..chaos
    };
    let over = Chaos { end: 0, ..chaos };
    vec![
        (schedule(&[], late, 300), refusal::SERVERS),
        (schedule(&[1; 9], chaos, 300), refusal::SERVERS),
        (schedule(&[1, 9], late, 300), refusal::SERVER),
        (schedule(&[0, 1], chaos, 300), refusal::SERVER),
        (schedule(&[1, 2], late, 300), refusal::RANGE),
        (schedule(&[1, 2], slow, 300), refusal::RANGE),
        (schedule(&[1], crowded, 300), refusal::ROOM),
        (schedule(&[1, 2, 3], over, 31), refusal::ROOM),
        (schedule(&[1, 2, 3], over, 0), refusal::ROOM),
    ]
}
