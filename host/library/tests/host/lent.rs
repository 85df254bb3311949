//! Lent memory: an area and a buffer, each with bytes behind it that nothing may change.

use library::Library;
use trace::{Answer, Call};

use crate::layout::{Counts, gate};
use crate::second;

/// Bytes behind what is lent.
pub const PAST: usize = 64;

/// What they hold, and what a lent buffer holds.
pub const OLD: u8 = 0xA5;

/// Memory of which the first `length` bytes are lent as the area.
#[derive(Clone)]
pub struct Lent {
    bytes: Vec<u8>,
    length: usize,
    before: Vec<u8>,
    buffer: Vec<u8>,
}

impl Lent {
    /// An area that holds these bytes.
    pub fn new(area: &[u8]) -> Self {
        let mut bytes = area.to_vec();
        bytes.resize(area.len() + PAST, OLD);
        Lent {
            bytes,
            length: area.len(),
            before: Vec::new(),
            buffer: Vec::new(),
        }
    }

    /// The area.
    pub fn area(&self) -> &[u8] {
        &self.bytes[..self.length]
    }

    /// The area, to be changed by a test.
    pub fn area_mut(&mut self) -> &mut [u8] {
        &mut self.bytes[..self.length]
    }

    /// A word of the area.
    pub fn word(&self, word: usize) -> u64 {
        let (words, _) = self.bytes.as_chunks();
        u64::from_le_bytes(words[word])
    }

    /// Writes a word into the area.
    pub fn set(&mut self, word: usize, value: u64) {
        self.bytes[8 * word..8 * word + 8].copy_from_slice(&value.to_le_bytes());
    }

    /// Makes a call with a buffer or list of so many bytes. Looks at every byte that it may not change, and holds its
    /// answer and the area to the calls that are written once more.
    pub fn make(&mut self, call: &Call, buffer: usize) -> Answer {
        self.before.clone_from(&self.bytes);
        self.buffer.clear();
        self.buffer.resize(buffer + PAST, OLD);
        let area = &mut self.bytes[..self.length];
        let answer = call.make(&mut Library, area, &mut self.buffer[..buffer]);
        let kept = self.kept_from(call, &answer);
        let told = format_args!("{call:?}: {answer:?}");
        assert!(
            self.bytes[kept..] == self.before[kept..],
            "{told}: the area"
        );
        let behind = self.buffer.iter().skip(answer.written());
        assert!(
            behind.into_iter().all(|byte| *byte == OLD),
            "{told}: the buffer"
        );
        self.is_as_second(call, &answer, buffer);
        answer
    }

    /// The byte from which on the call may not change the area.
    fn kept_from(&self, call: &Call, answer: &Answer) -> usize {
        let changes = !call.reads() && !matches!(call, Call::ChaosSchedule { .. });
        if answer.numbers.refusal() == 0 && changes {
            Counts::of(&self.bytes[..64]).bytes()
        } else {
            0
        }
    }

    /// The answer is the judge's refusal, or what the calls say that are written once more; so is the area.
    fn is_as_second(&mut self, call: &Call, answer: &Answer, buffer: usize) {
        let refusal = answer.numbers.refusal();
        if refusal != 0 {
            assert_eq!(*answer, call.refused(refusal), "{call:?}");
        }
        let before = &mut self.before[..self.length];
        let gate = match call {
            Call::Start { .. } | Call::ChaosSchedule { .. } => 0,
            _ => gate(before),
        };
        if gate != 0 {
            assert_eq!(refusal, gate, "{call:?}");
            return;
        }
        let mut lent = vec![OLD; buffer];
        if let Some(numbers) = second::make(call, before, &mut lent) {
            assert_eq!(answer.numbers, numbers, "{call:?}");
            assert!(
                *before == self.bytes[..self.length],
                "{call:?}: another area"
            );
            assert!(lent == self.buffer[..buffer], "{call:?}: other bytes");
        }
    }
}
