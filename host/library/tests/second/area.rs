//! The words of an area, its tables, its queue and its generators.

use crate::layout::Counts;

/// Words of the header.
pub const COMMAND_BYTES: usize = 25;
pub const CLIENT_TIMEOUT: usize = 26;
pub const CLIENT_BACKOFF: usize = 27;
pub const COUNT_BYTES: usize = 28;
pub const RAFT_CHECKS: usize = 29;
pub const SEED: usize = 31;
pub const NOW: usize = 32;
pub const WORKLOAD: usize = 33;
pub const MAX_LOG_GAPS: usize = 34;
pub const DIRECT_SEQ: usize = 35;
pub const EVENTS: usize = 36;
pub const LOSS: usize = 37;
pub const DUPLICATION: usize = 38;
pub const DELAY_FACTOR: usize = 39;
pub const BLOCKED: usize = 40;
pub const NETWORK: usize = 41;
pub const SENT: usize = 42;
pub const SENT_BY: usize = 45;
pub const ENTRIES_TO_LEADERS: usize = 69;
pub const FSYNCS: usize = 70;
pub const STORAGE_BYTES: usize = 71;
pub const CLIENT_REPLIES: usize = 72;
pub const PHASE: usize = 73;
pub const SLOT: usize = 74;
pub const INPUT: usize = 75;
pub const VERDICT: usize = 79;
pub const NAMED: usize = 80;
pub const APPLIED_ROWS: usize = 88;
pub const TOTAL: usize = 90;

/// Words of a server's block.
pub const DURABLE: usize = 3;
pub const WAITING: usize = 6;
pub const DISCARDED: usize = 7;
pub const STATUS: usize = 8;
pub const INCARNATION: usize = 14;
pub const GENERATION: usize = 15;
pub const CRASH: usize = 17;
pub const NEXT_APPLY: usize = 18;
pub const PENDING: usize = 19;
pub const LEADING: usize = 20;

/// A table: its first word, words of a row, the word with its count of rows, and its places.
#[derive(Clone, Copy)]
pub struct Table {
    begin: usize,
    width: usize,
    count: usize,
    places: usize,
}

/// An area's words. `over` is set where a table, a counter or a time has no room.
pub struct Area {
    pub words: Vec<u64>,
    pub counts: Counts,
    pub over: bool,
    /// What is owed after the open input, and the place from which it goes on.
    pub owed: [u64; 2],
    /// The bytes of a message that was delivered.
    pub message: Vec<u8>,
}

impl Area {
    /// The words that an area holds.
    pub fn of(area: &[u8]) -> Self {
        let counts = Counts::of(&area[..64]);
        let (chunks, _) = area.as_chunks();
        let words = chunks[..counts.end()].iter();
        let words: Vec<u64> = words.map(|c| u64::from_le_bytes(*c)).collect();
        Area {
            owed: [words[81], words[82]],
            words,
            counts,
            over: false,
            message: Vec::new(),
        }
    }

    /// Writes the words back.
    pub fn write_to(&self, area: &mut [u8]) {
        let (chunks, _) = area.as_chunks_mut();
        for (chunk, word) in chunks.iter_mut().zip(&self.words) {
            *chunk = word.to_le_bytes();
        }
    }

    /// Adds to a counter of 64 bits.
    pub fn add(&mut self, word: usize, number: u64) {
        let (sum, past) = self.words[word].overflowing_add(number);
        self.words[word] = sum;
        self.over |= past;
    }

    /// A word of a server's block, by the server's place.
    pub fn server(&self, slot: u64, word: usize) -> usize {
        self.counts.server(slot as usize) + word
    }

    /// A word of a client's row.
    pub fn client(&self, client: u64, word: usize) -> usize {
        self.counts.first_client() + 8 * client as usize + word
    }

    pub fn running(&self, slot: u64) -> bool {
        self.words[self.server(slot, STATUS)] == 1
    }

    pub fn is_member(&self, server: u64) -> bool {
        (1..=self.counts.servers as u64).contains(&server)
    }

    /// The words of a place of the current log, from index 1.
    pub fn place(&self, slot: u64, index: u64) -> std::ops::Range<usize> {
        let width = self.counts.place();
        let begin = self.server(slot, 64) + (index as usize - 1) * width;
        begin..begin + width
    }

    fn table(&self, begin: usize, width: usize, count: usize, places: usize) -> Table {
        Table {
            begin,
            width,
            count,
            places,
        }
    }

    pub fn queue(&self) -> Table {
        let c = &self.counts;
        self.table(c.queue(), c.event(), 83, c.events)
    }

    pub fn seen(&self) -> Table {
        let c = &self.counts;
        self.table(c.seen(), c.entry(), 84, c.history)
    }

    pub fn leaders(&self) -> Table {
        self.table(self.counts.leaders(), 2, 85, self.counts.history)
    }

    pub fn replies(&self) -> Table {
        self.table(self.counts.replies(), 5, 86, self.counts.history)
    }

    pub fn confirmations(&self) -> Table {
        self.table(self.counts.confirmations(), 3, 87, self.counts.history)
    }

    pub fn applied(&self) -> Table {
        let c = &self.counts;
        self.table(c.applied(), 1 + c.payload_words(), APPLIED_ROWS, c.log)
    }

    pub fn violations(&self) -> Table {
        self.table(256, 8, 89, 32)
    }

    pub fn waiting(&self, slot: u64) -> Table {
        let c = &self.counts;
        let begin = self.server(slot, c.waiting());
        self.table(begin, c.entry(), self.server(slot, WAITING), c.writes)
    }

    pub fn pending(&self, slot: u64) -> Table {
        let begin = self.server(slot, self.counts.pending());
        self.table(begin, 2, self.server(slot, PENDING), self.counts.history)
    }

    /// The rows of a table in order.
    pub fn rows(&self, table: Table) -> impl Iterator<Item = &[u64]> {
        let used = self.words[table.count] as usize * table.width;
        self.words[table.begin..table.begin + used].chunks_exact(table.width)
    }

    /// Puts a row at a place of a table, before those that are there.
    pub fn insert(&mut self, table: Table, place: usize, row: &[u64]) {
        let rows = self.words[table.count] as usize;
        if rows == table.places {
            self.over = true;
            return;
        }
        let at = table.begin + place * table.width;
        let end = table.begin + rows * table.width;
        self.words.copy_within(at..end, at + table.width);
        self.words[at..at + table.width].copy_from_slice(row);
        self.words[table.count] += 1;
    }

    /// Puts a row at the end.
    pub fn append(&mut self, table: Table, row: &[u64]) {
        let rows = self.words[table.count] as usize;
        self.insert(table, rows, row);
    }

    /// Takes a row away.
    pub fn remove(&mut self, table: Table, place: usize) -> Vec<u64> {
        let rows = self.words[table.count] as usize;
        let at = table.begin + place * table.width;
        let end = table.begin + rows * table.width;
        let row = self.words[at..at + table.width].to_vec();
        self.words.copy_within(at + table.width..end, at);
        self.words[end - table.width..end].fill(0);
        self.words[table.count] -= 1;
        row
    }

    /// Takes all rows away.
    pub fn clear(&mut self, table: Table) {
        let end = table.begin + table.places * table.width;
        self.words[table.begin..end].fill(0);
        self.words[table.count] = 0;
    }

    /// Pushes an event, so much after now.
    pub fn push(&mut self, after: u64, kind: u64, numbers: [u64; 4], message: &[u8]) {
        let (time, past) = self.words[NOW].overflowing_add(after);
        self.over |= past;
        self.push_at(time, kind, numbers, message);
    }

    /// Pushes an event, behind those of its time.
    pub fn push_at(&mut self, time: u64, kind: u64, numbers: [u64; 4], message: &[u8]) {
        let before = self.rows(self.queue()).filter(|row| row[0] <= time).count();
        let mut row = vec![time, kind];
        row.extend(numbers);
        row.push(message.len() as u64);
        row.extend(packed(message, self.counts.event() - 7));
        self.insert(self.queue(), before, &row);
    }

    /// Draws a number below the bound with the generator at a word.
    pub fn below(&mut self, generator: usize, bound: u64) -> u64 {
        below(&mut self.words[generator], bound)
    }

    /// Whether something of this rate happens; a rate of 0 draws nothing.
    pub fn chance(&mut self, rate: usize) -> bool {
        let rate = self.words[rate];
        rate > 0 && self.below(NETWORK, 1_000_000) < rate
    }

    /// Draws a delay.
    pub fn delay(&mut self) -> u64 {
        let mean = self.words[24];
        (mean / 2 + self.below(NETWORK, mean + 1)) * self.words[DELAY_FACTOR]
    }
}

/// The reference's generator.
pub fn below(state: &mut u64, bound: u64) -> u64 {
    *state = state.wrapping_add(0x9E37_79B9_7F4A_7C15);
    let mut z = *state;
    z = (z ^ (z >> 30)).wrapping_mul(0xBF58_476D_1CE4_E5B9);
    z = (z ^ (z >> 27)).wrapping_mul(0x94D0_49BB_1331_11EB);
    z ^= z >> 31;
    ((u128::from(z) * u128::from(bound)) >> 64) as u64
}

/// Bytes in so many words, zeros at the end.
pub fn packed(bytes: &[u8], words: usize) -> Vec<u64> {
    let mut bytes = bytes.to_vec();
    bytes.resize(8 * words, 0);
    let (chunks, _) = bytes.as_chunks();
    chunks.iter().map(|c| u64::from_le_bytes(*c)).collect()
}

/// A payload's words.
pub fn payload(kind: u64, bytes: &[u8], words: usize) -> Vec<u64> {
    let mark = if kind == 0 { 1 } else { 2 + bytes.len() as u64 };
    let mut payload = vec![mark];
    payload.extend(packed(bytes, words));
    payload
}

/// The command of a client, of at least twelve bytes.
pub fn command(client: u64, sequence: u64, size: u64) -> Vec<u8> {
    let mut bytes = (client as u32).to_le_bytes().to_vec();
    bytes.extend(sequence.to_le_bytes());
    bytes.resize(12.max(size as usize), 0);
    bytes
}
