//! Areas laid out word by word as docs/LAYOUT.md says, with their tables empty or filled: a second account of the layout, for the measurement
//! of the gate.

use crate::zeros;

/// The counts of an area.
#[derive(Clone, Copy)]
pub struct Counts {
    /// S: servers.
    pub servers: usize,
    /// C: clients.
    pub clients: usize,
    /// L: log indexes.
    pub indexes: usize,
    /// P: bytes of a payload.
    pub payload: usize,
    /// M: bytes of a message.
    pub message: usize,
    /// Q: queued events.
    pub events: usize,
    /// W: waiting writes of a server.
    pub writes: usize,
    /// H: rows of a server's pending keys, of the entries seen, the leaders, the replies and the confirmations.
    pub history: usize,
}

/// The words at which the parts of an area begin.
struct Places {
    block: usize,
    queue: usize,
    seen: usize,
    leaders: usize,
    replies: usize,
    confirmations: usize,
    applied: usize,
    clients: usize,
    end: usize,
}

impl Counts {
    /// Document 01's formula: the bytes of an area.
    pub fn bytes(&self) -> usize {
        let (l, p, h) = (self.indexes, self.payload, self.history);
        let server = 512 + 2 * l * (p + 24) + self.writes * (p + 32) + 16 * h;
        4_096
            + self.servers * server
            + self.events * (self.message + 64)
            + h * (2 * p + 160)
            + l * (p + 16)
            + 64 * self.clients
    }

    fn payload_words(&self) -> usize {
        self.payload.div_ceil(8)
    }

    fn event_words(&self) -> usize {
        7 + self.message.div_ceil(8)
    }

    fn places(&self) -> Places {
        let (l, h, p) = (self.indexes, self.history, self.payload_words());
        let block = 64 + 2 * l * (2 + p) + self.writes * (3 + p) + h * 2;
        let queue = 512 + self.servers * block;
        let seen = queue + self.events * self.event_words();
        let leaders = seen + h * (3 + p);
        let replies = leaders + h * 2;
        let confirmations = replies + h * 5;
        let applied = confirmations + h * 3;
        let clients = applied + l * (1 + p);
        Places {
            block,
            queue,
            seen,
            leaders,
            replies,
            confirmations,
            applied,
            clients,
            end: clients + self.clients * 8,
        }
    }
}

/// An area that is written from word to word.
struct Writer {
    bytes: Vec<u8>,
    word: usize,
}

impl Writer {
    /// Writes words from where the last ones ended.
    fn put(&mut self, words: &[u64]) {
        for value in words {
            let at = 8 * self.word;
            self.bytes[at..at + 8].copy_from_slice(&value.to_le_bytes());
            self.word += 1;
        }
    }

    /// Writes bytes in the next words, zeros behind them.
    fn put_bytes(&mut self, length: usize) {
        let at = 8 * self.word;
        self.bytes[at..at + length].fill(0xA5);
        self.word += length.div_ceil(8);
    }
}

/// An area with that part of every table filled, in halves: 0, 1 or 2.
pub fn area(counts: &Counts, halves: usize) -> Vec<u8> {
    let places = counts.places();
    let mut to = Writer {
        bytes: zeros(counts.bytes()),
        word: 0,
    };
    let filled = |rows: usize| rows * halves / 2;
    header(&mut to, counts, &places, &filled);
    for server in 0..counts.servers {
        to.word = 512 + server * places.block;
        block(&mut to, counts, &filled);
    }
    tables(&mut to, counts, &places, &filled);
    to.bytes
}

/// Counts and offsets, settings, a run with a quiet network, no open input, the counts of rows, the violations.
fn header(to: &mut Writer, counts: &Counts, places: &Places, filled: &impl Fn(usize) -> usize) {
    let c = counts;
    let numbers = [
        c.servers, c.clients, c.indexes, c.payload, c.message, c.events, c.writes, c.history,
    ];
    let offsets = [
        512,
        places.block,
        places.queue,
        places.seen,
        places.leaders,
        places.replies,
        places.confirmations,
        places.applied,
        places.clients,
        places.end,
    ];
    to.put(&numbers.map(|n| n as u64));
    to.put(&offsets.map(|n| 8 * n as u64));
    to.put(&[c.bytes() as u64]);
    let milliseconds = |n: u64| 1_000_000 * n;
    to.put(&[50, 150, 300].map(milliseconds));
    to.put(&[64, 256, milliseconds(1), c.payload as u64]);
    to.put(&[500, 20].map(milliseconds));
    to.put(&[1, 1, 0]);
    to.put(&[7, milliseconds(9), 11, 0, 1, 1_000]);
    to.put(&[0, 0, 1, 0, 13]);
    to.word += 31 + 10;
    let h = filled(c.history) as u64;
    let violations = filled(32) as u64;
    to.put(&[filled(c.events) as u64, h, h, h, h]);
    to.put(&[filled(c.indexes) as u64, violations, violations]);
    to.word = 256;
    for row in 0..violations {
        to.put(&[row, row % 8, 5, 1, 2, 3, 4, 5]);
    }
}

/// A payload: a command of the greatest length.
fn payload(to: &mut Writer, counts: &Counts, mark: u64) {
    to.put(&[mark + counts.payload as u64]);
    to.put_bytes(counts.payload);
}

/// A server's block: a leader of term 3, its logs, its waiting writes, its pending keys.
fn block(to: &mut Writer, counts: &Counts, filled: &impl Fn(usize) -> usize) {
    let p = counts.payload_words();
    let begin = to.word;
    let logs = begin + 64;
    let (writes, keys) = (filled(counts.writes), filled(counts.history));
    to.put(&[3, 1, 1, 3, 1, 1, writes as u64, 0]);
    to.put(&[1, 2, 3, 1, 1, 0]);
    to.put(&[1, 5, 6, 0, 1, keys as u64, 1, 3]);
    for log in 0..2 {
        to.word = logs + log * counts.indexes * (2 + p);
        for _ in 0..filled(counts.indexes) {
            payload(to, counts, 2);
            to.put(&[3]);
        }
    }
    to.word = logs + 2 * counts.indexes * (2 + p);
    for _ in 0..writes {
        payload(to, counts, 4);
        to.put(&[1, 3]);
    }
    to.word = logs + 2 * counts.indexes * (2 + p) + counts.writes * (3 + p);
    for key in 0..keys {
        to.put(&[0, key as u64]);
    }
}

/// The tables behind the servers: deliveries, entries seen, leaders, replies, confirmations, applied payloads, clients.
fn tables(to: &mut Writer, counts: &Counts, places: &Places, filled: &impl Fn(usize) -> usize) {
    let h = filled(counts.history) as u64;
    to.word = places.queue;
    for time in 0..filled(counts.events) as u64 {
        to.put(&[
            time,
            1,
            1,
            counts.servers as u64,
            1,
            0,
            counts.message as u64,
        ]);
        to.put_bytes(counts.message);
    }
    to.word = places.seen;
    let terms = counts.history.div_ceil(counts.indexes) as u64;
    for row in 0..h {
        to.put(&[1 + row / terms, 1 + row % terms]);
        payload(to, counts, 2);
    }
    to.word = places.leaders;
    for row in 0..h {
        to.put(&[row, 1]);
    }
    to.word = places.replies;
    for row in 0..h {
        to.put(&[row, row + 1, 1, 0, row]);
    }
    to.word = places.confirmations;
    for row in 0..h {
        to.put(&[row, 1, 1]);
    }
    to.word = places.applied;
    for _ in 0..filled(counts.indexes) {
        payload(to, counts, 2);
    }
    to.word = places.clients;
    for client in 0..counts.clients as u64 {
        to.put(&[0, client, 1, 1, client, 5, 0, 0]);
    }
}
