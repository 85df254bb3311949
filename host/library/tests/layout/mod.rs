//! A judge of questions 4 and 5, written from the words of docs/LAYOUT.md: whether an area's bytes lay out a state.

#![allow(dead_code, unused_imports)] // each test uses a part

mod blocks;
mod counts;
mod events;
mod header;
mod rows;
mod rule;
mod tables;

pub use counts::Counts;
pub use rule::Rule;

use rows::zero;
use rule::{Judged, ask};

/// What every call on this area but a start must answer before it asks anything else: 0, 4 or 5.
pub fn gate(area: &[u8]) -> u64 {
    judge(area).map_or_else(Rule::refusal, |()| 0)
}

/// The first range that the area does not keep.
pub fn judge(area: &[u8]) -> Judged {
    ask(area.len() >= counts::HEADER, Rule::ShorterThanHeader)?;
    let counts = Counts::of(&area[..64]);
    counts.judge()?;
    let area = area.get(..counts.bytes()).ok_or(Rule::ShorterThanFormula)?;
    let (chunks, rest) = area.as_chunks();
    let words: Vec<u64> = chunks.iter().map(|c| u64::from_le_bytes(*c)).collect();
    header::judge(&words, &counts)?;
    for slot in 0..counts.servers {
        let begin = counts.server(slot);
        blocks::judge(&words[begin..begin + counts.block()], &counts)?;
    }
    tables::judge(&words, &counts)?;
    let rest_is_zero = rest.iter().all(|byte| *byte == 0);
    ask(zero(&words[counts.end()..]) && rest_is_zero, Rule::Tail)
}
