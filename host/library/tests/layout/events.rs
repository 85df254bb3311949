//! The queue: time, kind, four numbers, message length, message.

use super::counts::{Counts, LONGEST};
use super::rows::{used, zero, zero_from};
use super::rule::{Judged, Rule, ask, flag, present, within};

/// Every event, in order of time.
pub fn judge(table: &[u64], rows: u64, counts: &Counts) -> Judged {
    let events = used(table, rows, counts.event(), Rule::QueueUnused)?;
    let events = events.chunks_exact(counts.event());
    for row in events.clone() {
        let used = numbers(row[1], &row[2..6], counts)?;
        ask(zero(&row[2 + used..6]), Rule::EventNumbers)?;
        message(row, counts)?;
    }
    ask(events.map(|row| row[0]).is_sorted(), Rule::EventOrder)
}

/// The numbers of an event of this kind. Answers how many it has.
fn numbers(kind: u64, numbers: &[u64], counts: &Counts) -> Result<usize, Rule> {
    match kind {
        0 => place(numbers[0], counts).map(|()| 1),
        1 => deliver(numbers, counts).map(|()| 3),
        2 => {
            place(numbers[0], counts)?;
            within(numbers[1], 0, 1, Rule::EventTimer).map(|()| 3)
        }
        3 => fault(numbers, counts).map(|used| 1 + used),
        4 => client(numbers[0], counts).map(|()| 1),
        5 => {
            place(numbers[0], counts)?;
            client(numbers[1], counts).map(|()| 4)
        }
        6 => redirect(numbers, counts).map(|()| 4),
        7 | 9 => client(numbers[0], counts).map(|()| 2),
        8 => {
            client(numbers[0], counts)?;
            within(numbers[2], 0, counts.log as u64, Rule::EventIndex).map(|()| 3)
        }
        _ => Err(Rule::EventKind),
    }
}

/// A server's place.
fn place(slot: u64, counts: &Counts) -> Judged {
    ask(slot < counts.servers as u64, Rule::EventPlace)
}

/// A client's number.
fn client(client: u64, counts: &Counts) -> Judged {
    ask(client < counts.clients as u64, Rule::EventClient)
}

/// From, to, entries.
fn deliver(numbers: &[u64], counts: &Counts) -> Judged {
    within(numbers[0], 1, counts.servers as u64, Rule::EventServer)?;
    within(numbers[1], 1, counts.servers as u64, Rule::EventServer)?;
    within(numbers[2], 0, u32::MAX.into(), Rule::EventEntries)
}

/// Client, attempt, and a leader who may be anyone.
fn redirect(numbers: &[u64], counts: &Counts) -> Judged {
    client(numbers[0], counts)?;
    flag(numbers[2], Rule::EventFlag)?;
    present(numbers[2], numbers[3], Rule::EventLeader)
}

/// A fault's kind and its numbers. Answers how many it has.
fn fault(numbers: &[u64], counts: &Counts) -> Result<usize, Rule> {
    let servers = counts.servers as u64;
    let first = numbers[1];
    match numbers[0] {
        0..=2 => within(first, 1, servers, Rule::FaultServer).map(|()| 1),
        3 => within(first, 0, LONGEST, Rule::FaultDowntime).map(|()| 1),
        4 => groups(first, counts).map(|()| 1),
        5 | 6 => {
            within(first, 1, servers, Rule::FaultServer)?;
            within(numbers[2], 1, servers, Rule::FaultServer).map(|()| 2)
        }
        7 | 11 => Ok(0),
        8 | 9 => within(first, 0, u32::MAX.into(), Rule::FaultRate).map(|()| 1),
        10 => within(first, 0, 65_536, Rule::FaultFactor).map(|()| 1),
        _ => Err(Rule::FaultKind),
    }
}

/// A partition's groups, one byte each, bit i for server i + 1.
fn groups(masks: u64, counts: &Counts) -> Judged {
    let outside = |mask: u8| u32::from(mask) >> counts.servers != 0;
    ask(
        !masks.to_le_bytes().into_iter().any(outside),
        Rule::FaultGroups,
    )
}

/// A delivery's message; no other event has one.
fn message(row: &[u64], counts: &Counts) -> Judged {
    let (length, bytes) = (row[6], &row[7..]);
    ask(
        row[1] == 1 || length == 0 && zero(bytes),
        Rule::MessageOfOther,
    )?;
    within(length, 0, counts.message as u64, Rule::MessageLength)?;
    ask(zero_from(bytes, length as usize), Rule::MessageBytes)
}
