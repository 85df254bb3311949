//! The eight counts, and the words at which the parts of an area begin.

use super::rule::{Judged, Rule, within};

/// Bytes of the header.
pub const HEADER: usize = 4_096;

/// The longest duration, 2^40 ns.
pub const LONGEST: u64 = 1 << 40;

/// The counts by document 01's letters.
#[derive(Debug, Clone, Copy, PartialEq, Eq)]
pub struct Counts {
    /// S.
    pub servers: usize,
    /// C.
    pub clients: usize,
    /// L.
    pub log: usize,
    /// P.
    pub payload: usize,
    /// M.
    pub message: usize,
    /// Q.
    pub events: usize,
    /// W.
    pub writes: usize,
    /// H.
    pub history: usize,
}

impl Counts {
    /// The first eight words. A number that is no count is out of its range by far.
    pub fn of(header: &[u8]) -> Self {
        let (words, _) = header.as_chunks();
        let count = |word: usize| u64::from_le_bytes(words[word]) as usize;
        Counts {
            servers: count(0),
            clients: count(1),
            log: count(2),
            payload: count(3),
            message: count(4),
            events: count(5),
            writes: count(6),
            history: count(7),
        }
    }

    /// The limits of document 01.
    pub fn judge(&self) -> Judged {
        within(self.servers as u64, 1, 8, Rule::Servers)?;
        within(self.clients as u64, 0, 64, Rule::Clients)?;
        within(self.log as u64, 1, 1_024, Rule::LogIndexes)?;
        within(self.payload as u64, 12, 256, Rule::Payload)?;
        within(self.message as u64, 0, 4_096, Rule::Message)?;
        within(self.events as u64, 1, 65_536, Rule::Events)?;
        within(self.writes as u64, 1, 65_536, Rule::Writes)?;
        within(self.history as u64, 1, 65_536, Rule::History)
    }

    /// Bytes of the area, by document 01's formula.
    pub fn bytes(&self) -> usize {
        let (l, p, h) = (self.log, self.payload, self.history);
        HEADER
            + self.servers * (512 + 2 * l * (p + 24) + self.writes * (p + 32) + 16 * h)
            + self.events * (self.message + 64)
            + h * (2 * p + 160)
            + l * (p + 16)
            + 64 * self.clients
    }

    /// Words for the bytes of a payload.
    pub fn payload_words(&self) -> usize {
        self.payload.div_ceil(8)
    }

    /// Words of a place of a log.
    pub fn place(&self) -> usize {
        2 + self.payload_words()
    }

    /// Words of a waiting write, and of an entry seen.
    pub fn entry(&self) -> usize {
        3 + self.payload_words()
    }

    /// Words of an event.
    pub fn event(&self) -> usize {
        7 + self.message.div_ceil(8)
    }

    /// Words of a server's block.
    pub fn block(&self) -> usize {
        self.pending() + 2 * self.history
    }

    /// The word of a block at which its waiting writes begin.
    pub fn waiting(&self) -> usize {
        64 + 2 * self.log * self.place()
    }

    /// The word of a block at which its pending keys begin.
    pub fn pending(&self) -> usize {
        self.waiting() + self.writes * self.entry()
    }

    /// The word at which a server's block begins.
    pub fn server(&self, slot: usize) -> usize {
        HEADER / 8 + slot * self.block()
    }

    /// The word at which the queue begins.
    pub fn queue(&self) -> usize {
        self.server(self.servers)
    }

    /// The word at which the entries seen begin.
    pub fn seen(&self) -> usize {
        self.queue() + self.events * self.event()
    }

    /// The word at which the leaders begin.
    pub fn leaders(&self) -> usize {
        self.seen() + self.history * self.entry()
    }

    /// The word at which the replies begin.
    pub fn replies(&self) -> usize {
        self.leaders() + 2 * self.history
    }

    /// The word at which the confirmations begin.
    pub fn confirmations(&self) -> usize {
        self.replies() + 5 * self.history
    }

    /// The word at which the applied payloads begin.
    pub fn applied(&self) -> usize {
        self.confirmations() + 3 * self.history
    }

    /// The word at which the clients begin.
    pub fn first_client(&self) -> usize {
        self.applied() + self.log * (1 + self.payload_words())
    }

    /// The word behind the clients.
    pub fn end(&self) -> usize {
        self.first_client() + 8 * self.clients
    }
}
