//! What rows are made of: payloads, zeros, orders.

use super::rule::{Judged, Rule, ask};

/// Whether all words are 0.
pub fn zero(words: &[u64]) -> bool {
    words.iter().all(|word| *word == 0)
}

/// Whether the bytes of the words are 0 from the byte `length` on.
pub fn zero_from(words: &[u64], length: usize) -> bool {
    let part = |word: &u64| word >> (8 * (length % 8)) == 0;
    words.get(length / 8).is_none_or(part) && words.iter().skip(length / 8 + 1).all(|w| *w == 0)
}

/// The length of the command of a mark, where marks of commands begin with `first`; a smaller mark has none.
pub fn length(mark: u64, first: u64) -> u64 {
    mark.saturating_sub(first)
}

/// A payload of at most so many bytes: 1 for a noop and 2 + length for a command, then the bytes.
pub fn payload(words: &[u64], most: usize, mark: Rule, bytes: Rule) -> Judged {
    let length = length(words[0], 2);
    ask(words[0] != 0 && length <= most as u64, mark)?;
    ask(zero_from(&words[1..], length as usize), bytes)
}

/// The used rows of a table, and 0 in all others.
pub fn used(table: &[u64], rows: u64, words: usize, unused: Rule) -> Result<&[u64], Rule> {
    let (used, free) = table.split_at(rows as usize * words);
    ask(zero(free), unused)?;
    Ok(used)
}

/// Whether the first two words of rows rise, the first word before the second.
pub fn rising(rows: &[u64], words: usize) -> bool {
    let keys = rows.chunks_exact(words).map(|row| (row[0], row[1]));
    keys.is_sorted_by(|one, next| one < next)
}
