//! Making the calls of a trace at a port, and comparing the answers.

use std::fmt;

use port::{Limits, Port, area_length};

use crate::{Answer, Call, Trace};

/// How a trace is replayed.
#[derive(Debug, Clone, Copy, PartialEq, Eq)]
pub struct Options {
    /// Of the calls that only read, one in so many is made; 1 makes all. They change no state,
    /// and a port that looks through its whole area at each call needs time for each.
    pub reads: usize,
}

impl Default for Options {
    fn default() -> Self {
        Options { reads: 1 }
    }
}

/// Where a port's answer is not the trace's.
#[derive(Debug, Clone, PartialEq, Eq)]
pub struct Difference {
    /// The number of the call, from 0.
    pub place: usize,
    /// The call.
    pub call: Call,
    /// What differs.
    pub what: What,
}

/// What differs.
#[derive(Debug, Clone, PartialEq, Eq)]
pub enum What {
    /// The answer.
    Answer {
        /// What the trace has.
        expected: Box<Answer>,
        /// What the port gave.
        found: Box<Answer>,
    },
    /// The buffer was changed past the bytes that the answer has.
    Buffer,
    /// The area was changed past its length.
    PastArea,
    /// The area was changed by a refused call.
    Refused,
}

impl fmt::Display for Difference {
    fn fmt(&self, f: &mut fmt::Formatter<'_>) -> fmt::Result {
        write!(f, "call {} {}: ", self.place, self.call)?;
        match &self.what {
            What::Answer { expected, found } => write!(f, "expected {expected}, found {found}"),
            What::Buffer => write!(f, "the buffer was changed past the answer's bytes"),
            What::PastArea => write!(f, "the area was changed past its length"),
            What::Refused => write!(f, "the area was changed by a refused call"),
        }
    }
}

impl std::error::Error for Difference {}

/// Bytes lent past the area's length.
pub(crate) const PAST: usize = 64;

/// What lent memory holds before anything writes it.
const OLD: u8 = 0xA5;

/// Makes the calls of the trace at the port. Returns how many were made.
///
/// # Errors
///
/// Returns the first call whose answer, or whose effect on lent memory, is not the trace's.
pub fn replay(
    trace: &Trace,
    port: &mut impl Port,
    options: Options,
) -> Result<usize, Box<Difference>> {
    let mut lent = Lent::default();
    let mut made = 0;
    for (place, exchange) in trace.exchanges.iter().enumerate() {
        let call = &exchange.call;
        if let Call::Start {
            settings, limits, ..
        } = call
            && exchange.answer.numbers.refusal() == 0
        {
            lent = Lent::new(area_length(settings, limits), limits);
        }
        if call.reads() && place % options.reads.max(1) != 0 {
            continue;
        }
        made += 1;
        if let Some(what) = lent.differs(call, &exchange.answer, port) {
            let call = call.clone();
            return Err(Box::new(Difference { place, call, what }));
        }
    }
    Ok(made)
}

/// The memory that is lent to the port.
#[derive(Default)]
struct Lent {
    /// The area and what is past it.
    area: Vec<u8>,
    /// Where the area ends.
    length: usize,
    /// The host's buffer, or the list of a schedule.
    buffer: Vec<u8>,
    /// The buffer's length.
    longest: usize,
}

impl Lent {
    fn new(length: u64, limits: &Limits) -> Self {
        let length = usize::try_from(length).expect("an area within the limits fits in memory");
        Lent {
            area: vec![OLD; length + PAST],
            length,
            buffer: Vec::new(),
            longest: limits.message.max(limits.payload) as usize,
        }
    }

    /// Makes the call. Answers what differs, if anything does.
    fn differs(&mut self, call: &Call, expected: &Answer, port: &mut impl Port) -> Option<What> {
        let refused = expected.numbers.refusal() != 0;
        let before = refused.then(|| self.area.clone());
        let buffer = match call {
            Call::ChaosSchedule { length, .. } => *length as usize,
            _ => self.longest,
        };
        self.buffer.clear();
        self.buffer.resize(buffer, OLD);
        let found = call.make(port, &mut self.area, &mut self.buffer);
        if found != *expected {
            return Some(What::Answer {
                expected: Box::new(expected.clone()),
                found: Box::new(found),
            });
        }
        let changed = |bytes: &[u8]| bytes.iter().any(|byte| *byte != OLD);
        let behind = self.buffer.get(expected.written()..);
        if changed(behind.unwrap_or_default()) {
            return Some(What::Buffer);
        }
        if changed(&self.area[self.length..]) {
            return Some(What::PastArea);
        }
        before
            .filter(|before| *before != self.area)
            .map(|_| What::Refused)
    }
}
