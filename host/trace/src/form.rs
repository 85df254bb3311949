//! The file form: 64-bit words, little-endian.
//!
//! A trace is a sequence of rows. A row is the number of words that follow in it, the call's
//! number, its arguments, its answer, and the bytes that the call wrote to the lent buffer.
//! A number is one word; bytes are their length and then words of eight, zeros at the end.

use std::fmt;

use port::Words;

use crate::{Call, Exchange, Trace};

/// Where a trace's words stop being a trace.
#[derive(Debug, Clone, PartialEq, Eq)]
pub struct BadForm {
    /// The number of the row, from 0.
    pub row: usize,
}

impl fmt::Display for BadForm {
    fn fmt(&self, f: &mut fmt::Formatter<'_>) -> fmt::Result {
        write!(f, "row {} is no call with an answer", self.row)
    }
}

impl std::error::Error for BadForm {}

impl Exchange {
    fn row(&self) -> Vec<u64> {
        let mut row = vec![self.call.number()];
        self.call.put(&mut row);
        self.answer.put(&mut row);
        row
    }

    fn from_row(row: &[u64]) -> Option<Self> {
        let mut rest = row;
        let number = u64::take(&mut rest)?;
        let call = Call::take(number, &mut rest)?;
        let answer = call.take_answer(&mut rest)?;
        rest.is_empty().then_some(Exchange { call, answer })
    }
}

impl Trace {
    /// The trace as words.
    pub fn to_words(&self) -> Vec<u64> {
        let rows = self.exchanges.iter().map(Exchange::row);
        rows.flat_map(|row| std::iter::once(row.len() as u64).chain(row))
            .collect()
    }

    /// The trace that the words are.
    ///
    /// # Errors
    ///
    /// Returns the first row that is none.
    pub fn from_words(words: &[u64]) -> Result<Self, BadForm> {
        let mut exchanges = Vec::new();
        let mut rest = words;
        while let Some((len, after)) = rest.split_first() {
            let bad = BadForm {
                row: exchanges.len(),
            };
            let split = usize::try_from(*len)
                .ok()
                .and_then(|len| after.split_at_checked(len));
            let (row, next) = split.ok_or_else(|| bad.clone())?;
            exchanges.push(Exchange::from_row(row).ok_or(bad)?);
            rest = next;
        }
        Ok(Trace { exchanges })
    }

    /// The trace as the bytes of a file.
    pub fn to_bytes(&self) -> Vec<u8> {
        let words = self.to_words();
        words.iter().flat_map(|word| word.to_le_bytes()).collect()
    }

    /// The trace in the bytes of a file.
    ///
    /// # Errors
    ///
    /// Returns the first row that is none; bytes past the last whole word are a row of their own.
    pub fn from_bytes(bytes: &[u8]) -> Result<Self, BadForm> {
        let (chunks, rest) = bytes.as_chunks();
        let words: Vec<u64> = chunks.iter().map(|c| u64::from_le_bytes(*c)).collect();
        let trace = Trace::from_words(&words)?;
        match rest {
            [] => Ok(trace),
            _ => Err(BadForm {
                row: trace.exchanges.len(),
            }),
        }
    }
}
