//! Calls and answers for people, and the time of a call.

use std::fmt::{self, Debug, Display, Write as _};

use port::{Chaos, Limits, Settings};

use crate::call::NAMES;
use crate::{Answer, Call, Exchange, Numbers, Trace};

/// Bytes of a buffer that are shown.
const SHOWN: usize = 32;

/// The name of the call with this number; none where there is no such call.
pub fn call_name(number: u64) -> Option<String> {
    let known = NAMES.iter().find(|(known, _)| *known == number);
    known.map(|(_, name)| words(name))
}

/// An identifier as words: WriteHardState is write hard state.
fn words(name: &str) -> String {
    let mut text = String::new();
    for letter in name.chars() {
        if letter.is_uppercase() && !text.is_empty() {
            text.push(' ');
        }
        text.extend(letter.to_lowercase());
    }
    text
}

/// An argument, for people.
pub(crate) trait Shown {
    /// The argument in a few words.
    fn shown(&self) -> String;
}

impl Shown for u64 {
    fn shown(&self) -> String {
        self.to_string()
    }
}

impl Shown for Vec<u8> {
    fn shown(&self) -> String {
        bytes(self)
    }
}

impl Shown for Box<Settings> {
    fn shown(&self) -> String {
        fields(self)
    }
}

impl Shown for Box<Limits> {
    fn shown(&self) -> String {
        fields(self)
    }
}

impl Shown for Chaos {
    fn shown(&self) -> String {
        fields(self)
    }
}

/// The fields of a record, without its name.
fn fields(record: &impl Debug) -> String {
    let text = format!("{record:?}");
    let begin = text.find('{').unwrap_or_default();
    text[begin..].to_owned()
}

/// How many, and the first of them.
fn bytes(bytes: &[u8]) -> String {
    let mut text = format!("{} bytes", bytes.len());
    for (at, byte) in bytes.iter().take(SHOWN).enumerate() {
        let gap = if at == 0 { " " } else { "" };
        let _ = write!(text, "{gap}{byte:02x}");
    }
    if bytes.len() > SHOWN {
        text += "..";
    }
    text
}

impl Display for Call {
    fn fmt(&self, f: &mut fmt::Formatter<'_>) -> fmt::Result {
        let name = call_name(self.number()).unwrap_or_default();
        let arguments = self.arguments();
        let arguments = arguments
            .iter()
            .map(|(name, value)| format!("{name} {value}"));
        let arguments = arguments.collect::<Vec<_>>().join(", ");
        write!(f, "{name}({arguments})")
    }
}

impl Display for Answer {
    fn fmt(&self, f: &mut fmt::Formatter<'_>) -> fmt::Result {
        let words = self.numbers.to_words();
        let zeros = words.iter().skip(1).all(|word| *word == 0);
        match (&words[..], zeros) {
            ([0], _) => write!(f, "accepted")?,
            ([0, ..], _) | (_, false) => {
                let text = fields(&self.numbers).replacen("refusal: 0, ", "", 1);
                write!(f, "{}", text.trim_end_matches(')'))?;
            }
            ([refusal, ..], true) => write!(f, "refused with {refusal}")?,
            ([], _) => {}
        }
        if !self.bytes.is_empty() {
            write!(f, ", {}", bytes(&self.bytes))?;
        }
        Ok(())
    }
}

impl Answer {
    /// The first place at which the bytes of two answers differ, if they do.
    pub fn first_other_byte(&self, other: &Answer) -> Option<usize> {
        let (these, those) = (&self.bytes, &other.bytes);
        let shorter = these.len().min(those.len());
        let differs = (0..shorter).find(|at| these[*at] != those[*at]);
        differs.or((these.len() != those.len()).then_some(shorter))
    }
}

impl Trace {
    /// The simulated time of a call in nanoseconds, and whether it is known exactly. Time moves at a
    /// step and a start, and is told by a reading of the run: the one behind the last step, or an
    /// older one where there is none.
    pub fn time_of(&self, place: usize) -> Option<(u64, bool)> {
        let moves = |at: &usize| {
            let Exchange { call, answer } = &self.exchanges[*at];
            let moving = matches!(call, Call::Step { .. } | Call::Start { .. });
            moving && answer.numbers.refusal() == 0
        };
        let told = |at: usize| match &self.exchanges[at].answer.numbers {
            Numbers::Run(run) => Some(run.now),
            _ => None,
        };
        let all = self.exchanges.len();
        let place = place.min(all.checked_sub(1)?);
        let moved = (0..=place).rev().find(moves).unwrap_or_default();
        let next = (moved + 1..all).find(moves).unwrap_or(all);
        let here = (moved..next).find_map(told).map(|now| (now, true));
        here.or_else(|| (0..moved).rev().find_map(told).map(|now| (now, false)))
    }
}
