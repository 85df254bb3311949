//! A run at the library, call by call.

use port::kinds::{fault, input, payload, role};
use port::{Input, Limits, Opened, Sealed, Settings, Stepped, area_length};
use trace::{Answer, Call, Numbers};

use crate::host::{Lent, OLD};
use crate::layout::{Counts, judge};

/// The greatest number of 64 bits.
pub const MAX: u64 = u64::MAX;

/// The latest deadline.
pub const LATEST: u64 = 1 << 62;

/// One server, no clients, and messages that take no time.
pub const SETTINGS: Settings = Settings {
    servers: 1,
    heartbeat_interval: 1,
    election_timeout_min: 2,
    election_timeout_max: 2,
    max_entries_per_message: 1,
    max_entries_in_flight: 1,
    one_way_delay: 0,
    clients: 0,
    command_bytes: 12,
    client_timeout: 1_000,
    client_backoff: 10,
    count_bytes: 1,
    raft_checks: 0,
    start_spread: 0,
};

/// Room for what a test does not look at.
pub const LIMITS: Limits = Limits {
    log: 4,
    payload: 12,
    message: 8,
    events: 20,
    writes: 8,
    history: 8,
};

/// A run in an area of its own.
#[derive(Clone)]
pub struct Run {
    lent: Lent,
    counts: Counts,
}

impl Run {
    /// A run that has been started: the first server's start is open where there is no spread.
    pub fn started(settings: Settings, limits: Limits) -> Self {
        let mut run = Run::before_start(&settings, &limits);
        run.yes(&start(settings, limits));
        run.counts = Counts::of(&run.lent.area()[..64]);
        run
    }

    /// An area that is long enough, and holds no run.
    pub fn before_start(settings: &Settings, limits: &Limits) -> Self {
        let area = vec![OLD; area_length(settings, limits) as usize];
        Run {
            counts: Counts::of(&area[..64]),
            lent: Lent::new(&area),
        }
    }

    /// A run in which every server has started.
    pub fn running(settings: Settings, limits: Limits) -> Self {
        let mut run = Run::started(settings, limits);
        for _ in 0..settings.servers {
            run.finish();
        }
        run
    }

    /// A run whose first server has an input open that is synced.
    pub fn sending(settings: Settings, limits: Limits) -> Self {
        let mut run = Run::running(settings, limits);
        run.fire(1);
        run.seal();
        run
    }

    /// The answer to a call.
    pub fn answer(&mut self, call: &Call) -> Answer {
        self.lent.make(call, 300)
    }

    /// The call is accepted, and leaves a state.
    pub fn yes(&mut self, call: &Call) -> Answer {
        let answer = self.answer(call);
        assert_eq!(answer.numbers.refusal(), 0, "{call:?}");
        assert_eq!(judge(self.lent.area()), Ok(()), "{call:?}");
        answer
    }

    /// The call finds no room, however often it is made, and changes nothing.
    pub fn full(&mut self, call: &Call) {
        assert_eq!(judge(self.lent.area()), Ok(()), "before {call:?}");
        for _ in 0..2 {
            assert_eq!(self.answer(call), call.refused(10), "{call:?}");
        }
    }

    /// The call is accepted where there is room for it, else refused.
    pub fn asks(&mut self, call: &Call, room: bool) {
        if room {
            self.yes(call);
        } else {
            self.full(call);
        }
    }

    /// The counter at this word has room for exactly so much as the call adds.
    pub fn counts(&self, word: usize, added: u64, call: &Call) {
        let mut run = self.clone();
        run.set(word, MAX - added + 1);
        run.full(call);
        run.set(word, MAX - added);
        run.yes(call);
        assert_eq!(run.word(word), MAX, "{call:?}");
    }

    /// A word of the area.
    pub fn word(&self, word: usize) -> u64 {
        self.lent.word(word)
    }

    /// Writes a word into the area.
    pub fn set(&mut self, word: usize, value: u64) {
        self.lent.set(word, value);
    }

    /// A word of a server's block, from server 1.
    pub fn server(&self, server: usize, word: usize) -> usize {
        self.counts.server(server - 1) + word
    }

    /// A word of a client's row, from client 0.
    pub fn client(&self, client: usize, word: usize) -> usize {
        self.counts.first_client() + 8 * client + word
    }

    /// A word of an event's row, from the first due.
    pub fn event(&self, row: usize, word: usize) -> usize {
        self.counts.queue() + row * self.counts.event() + word
    }

    /// A word of a reply's row.
    pub fn reply(&self, row: usize, word: usize) -> usize {
        self.counts.replies() + 5 * row + word
    }

    /// Fills the queue but for so many places with faults at the end of time, which are never due.
    pub fn fill_queue(&mut self, free: usize) {
        for row in self.word(83) as usize..self.counts.events - free {
            for (word, value) in [(0, MAX), (1, 3), (2, fault::HEAL_LINKS)] {
                self.set(self.event(row, word), value);
            }
            self.set(83, row as u64 + 1);
        }
    }

    /// Opens a timer's input.
    pub fn fire(&mut self, server: u64) {
        let timer = 0;
        self.yes(&Call::FireTimer { server, timer });
    }

    /// Syncs the open input.
    pub fn seal(&mut self) {
        let answer = self.yes(&SEAL);
        assert_ne!(opened(&answer).kind, input::START);
    }

    /// Syncs and ends the open input: its server follows nobody.
    pub fn finish(&mut self) {
        self.seal();
        self.yes(&end(role::FOLLOWER, 0));
    }

    /// Takes an event, and answers the input that it opened.
    pub fn step(&mut self) -> Input {
        let answer = self.yes(&STEP);
        let Numbers::Stepped(stepped) = answer.numbers else {
            panic!("a step answers that it is one");
        };
        assert_eq!(stepped.taken, 1, "an event is due");
        stepped.input
    }

    /// Schedules a fault at once, and takes it.
    pub fn strike(&mut self, fault: u64, first: u64) -> Input {
        self.yes(&strike(fault, first));
        self.step()
    }
}

/// The input that an answer tells of.
pub fn opened(answer: &Answer) -> Input {
    match answer.numbers {
        Numbers::Opened(Opened { input, .. })
        | Numbers::Stepped(Stepped { input, .. })
        | Numbers::Sealed(Sealed { input, .. }) => input,
        _ => Input::default(),
    }
}

/// A step that takes whatever is due at some time.
pub const STEP: Call = Call::Step { deadline: LATEST };

/// A seal that refuses nothing.
pub const SEAL: Call = Call::Seal {
    refused: 0,
    hinted: 0,
    leader: 0,
};

/// A seal that refuses, and names nobody.
pub const REFUSE: Call = Call::Seal {
    refused: 1,
    hinted: 0,
    leader: 0,
};

/// A start.
pub fn start(settings: Settings, limits: Limits) -> Call {
    Call::Start {
        settings: Box::new(settings),
        limits: Box::new(limits),
        seed: 1,
    }
}

/// The end of an input.
pub fn end(role: u64, term: u64) -> Call {
    Call::End {
        role,
        term,
        hinted: 0,
        leader: 0,
        commit: 0,
    }
}

/// A fault without groups, as soon as it can be.
pub fn strike(fault: u64, first: u64) -> Call {
    Call::Schedule {
        at: 0,
        fault,
        first,
        second: 1,
        groups: Vec::new(),
    }
}

/// An entry of term 1 without a command.
pub fn put_noop(index: u64) -> Call {
    Call::WritePut {
        index,
        term: 1,
        kind: payload::NOOP,
        payload: Vec::new(),
    }
}

/// An entry of term 1 with a command of one byte.
pub fn put_command(index: u64, byte: u8) -> Call {
    Call::WritePut {
        index,
        term: 1,
        kind: payload::COMMAND,
        payload: vec![byte],
    }
}

/// A message of three bytes with two entries.
pub const SEND: fn(u64) -> Call = |to| Call::OutputSend {
    to,
    message: vec![1, 2, 3],
    entries: 2,
};

/// The command of a client.
pub fn apply(index: u64, client: u32, sequence: u64) -> Call {
    let mut command = client.to_le_bytes().to_vec();
    command.extend(sequence.to_le_bytes());
    Call::OutputApply {
        index,
        kind: payload::COMMAND,
        payload: command,
    }
}
