//! A first difference, told with the calls before it.

use std::fmt::Write as _;

use trace::{Answer, Difference, Exchange, Trace, What};

use crate::words::{exact, grouped};

/// Where two accounts of a run part: the calls before, the call, and both answers.
pub fn told(trace: &Trace, difference: &Difference, before: u64) -> String {
    let place = difference.place;
    let before = usize::try_from(before).unwrap_or(usize::MAX);
    let first = place.saturating_sub(before);
    let mut text = String::new();
    for (at, Exchange { call, answer }) in trace.exchanges[first..place].iter().enumerate() {
        let _ = writeln!(text, "{:>9}  {call} -> {answer}", first + at);
    }
    let _ = writeln!(text, "{place:>9}  {} -> DIFFERS", difference.call);
    match &difference.what {
        What::Answer { expected, found } => text += &both(expected, found),
        What::Buffer => text += "the buffer was changed past the answer's bytes\n",
        What::PastArea => text += "the area was changed past its length\n",
        What::Refused => text += "the area was changed by a refused call\n",
    }
    text
}

/// Two answers, and where their bytes part.
fn both(expected: &Answer, found: &Answer) -> String {
    let mut text = format!("     expected  {expected}\n        found  {found}\n");
    if let Some(at) = expected.first_other_byte(found) {
        let byte = |answer: &Answer| match answer.bytes.get(at) {
            Some(byte) => format!("{byte:02x}"),
            None => "none".to_owned(),
        };
        let (one, other) = (byte(expected), byte(found));
        let _ = writeln!(
            text,
            "the bytes differ from place {at} on: {one} and {other}"
        );
    }
    text
}

/// The number of a call in its run, and its time.
pub fn whereabouts(trace: &Trace, place: usize) -> String {
    let calls = grouped(trace.exchanges.len() as u64);
    let number = grouped(place as u64);
    let time = match trace.time_of(place) {
        Some((nanos, true)) => format!("at {}", exact(nanos)),
        Some((nanos, false)) => format!("not before {}", exact(nanos)),
        None => "its time was not read".to_owned(),
    };
    format!("call {number} (the start is call 0) of {calls}, {time}")
}
