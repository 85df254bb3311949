//! A server's block.

use super::counts::Counts;
use super::rows::{length, payload, rising, used, zero, zero_from};
use super::rule::{Judged, Rule, ask, flag, present, within};

/// Every field of a block.
pub fn judge(block: &[u64], counts: &Counts) -> Judged {
    storage(block, counts)?;
    server(block, counts)?;
    ask(zero(&block[22..64]), Rule::BlockUnused)?;
    for place in block[64..counts.waiting()].chunks_exact(counts.place()) {
        entry(place, counts)?;
    }
    waiting(block, counts)?;
    pending(block, counts)
}

/// Words 0 to 7: terms, votes, waiting writes; the discarded entries are any number.
fn storage(block: &[u64], counts: &Counts) -> Judged {
    flag(block[1], Rule::VoteFlag)?;
    present(block[1], block[2], Rule::Vote)?;
    flag(block[4], Rule::DurableVoteFlag)?;
    present(block[4], block[5], Rule::DurableVote)?;
    within(block[6], 0, counts.writes as u64, Rule::WaitingRows)
}

/// Words 8 to 21.
fn server(block: &[u64], counts: &Counts) -> Judged {
    flag(block[8], Rule::StatusFlag)?;
    ask(block[8] == 1 || zero(&block[9..14]), Rule::NoStatus)?;
    within(block[9], 0, 2, Rule::Role)?;
    flag(block[11], Rule::LeaderFlag)?;
    present(block[11], block[12], Rule::Leader)?;
    within(block[14], 0, u32::MAX.into(), Rule::Incarnation)?;
    flag(block[17], Rule::CrashFlag)?;
    within(block[18], 1, counts.log as u64 + 1, Rule::NextApply)?;
    within(block[19], 0, counts.history as u64, Rule::PendingRows)?;
    flag(block[20], Rule::LeadingFlag)?;
    present(block[20], block[21], Rule::LedTerm)
}

/// A place of a log: a payload and its term, or zeros.
fn entry(place: &[u64], counts: &Counts) -> Judged {
    if place[0] == 0 {
        return ask(zero(place), Rule::NoEntry);
    }
    let last = counts.place() - 1;
    payload(
        &place[..last],
        counts.payload,
        Rule::LogMark,
        Rule::LogBytes,
    )
}

/// The waiting writes: a mark, the bytes of a command, two numbers.
fn waiting(block: &[u64], counts: &Counts) -> Judged {
    let table = &block[counts.waiting()..counts.pending()];
    let rows = used(table, block[6], counts.entry(), Rule::WaitingUnused)?;
    for row in rows.chunks_exact(counts.entry()) {
        let (bytes, numbers) = row[1..].split_at(counts.payload_words());
        let length = length(row[0], 4);
        ask(length <= counts.payload as u64, Rule::WaitingMark)?;
        ask(zero_from(bytes, length as usize), Rule::WaitingBytes)?;
        match row[0] {
            0 | 2 => ask(numbers[1] == 0, Rule::WaitingSecond)?,
            1 => {}
            _ => within(numbers[0], 1, counts.log as u64, Rule::WaitingIndex)?,
        }
    }
    Ok(())
}

/// The pending keys: a client and a sequence number, rising.
fn pending(block: &[u64], counts: &Counts) -> Judged {
    let keys = used(
        &block[counts.pending()..],
        block[19],
        2,
        Rule::PendingUnused,
    )?;
    for key in keys.chunks_exact(2) {
        ask(key[0] < counts.clients as u64, Rule::PendingClient)?;
    }
    ask(rising(keys, 2), Rule::PendingOrder)
}
