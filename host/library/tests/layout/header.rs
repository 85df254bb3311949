//! The header: bytes 0 to 4,095.

use super::counts::{Counts, HEADER, LONGEST};
use super::rows::{used, zero};
use super::rule::{Judged, Rule, ask, flag, present, within};

/// The greatest number of 32 bits.
const MOST_32: u64 = u32::MAX as u64;

/// Every field of the header behind the counts.
pub fn judge(words: &[u64], counts: &Counts) -> Judged {
    offsets(words, counts)?;
    settings(words, counts)?;
    network(words, counts)?;
    input(words, counts)?;
    rows(words, counts)?;
    ask(zero(&words[91..256]), Rule::HeaderUnused)?;
    violations(&words[256..512], words[89])
}

/// Words 8 to 18 follow from the counts.
fn offsets(words: &[u64], counts: &Counts) -> Judged {
    let offsets = [
        (HEADER, Rule::BlocksBegin),
        (8 * counts.block(), Rule::BlockBytes),
        (8 * counts.queue(), Rule::QueueBegins),
        (8 * counts.seen(), Rule::SeenBegins),
        (8 * counts.leaders(), Rule::LeadersBegin),
        (8 * counts.replies(), Rule::RepliesBegin),
        (8 * counts.confirmations(), Rule::ConfirmationsBegin),
        (8 * counts.applied(), Rule::AppliedBegins),
        (8 * counts.first_client(), Rule::ClientsBegin),
        (8 * counts.end(), Rule::ClientsEnd),
        (counts.bytes(), Rule::AreaBytes),
    ];
    for (word, (offset, rule)) in words[8..].iter().zip(offsets) {
        ask(*word == offset as u64, rule)?;
    }
    Ok(())
}

/// Words 19 to 30.
fn settings(words: &[u64], counts: &Counts) -> Judged {
    let [heartbeat, min, max, per_message, in_flight] = [19, 20, 21, 22, 23].map(|i| words[i]);
    within(max, 1, LONGEST, Rule::ElectionTimeoutMax)?;
    within(min, 1, max, Rule::ElectionTimeoutMin)?;
    within(heartbeat, 1, min - 1, Rule::HeartbeatInterval)?;
    within(per_message, 1, u64::MAX, Rule::EntriesPerMessage)?;
    within(in_flight, per_message, u64::MAX, Rule::EntriesInFlight)?;
    within(words[24], 0, LONGEST, Rule::OneWayDelay)?;
    within(words[25], 0, counts.payload as u64, Rule::CommandBytes)?;
    within(words[26], 0, LONGEST, Rule::ClientTimeout)?;
    within(words[27], 0, LONGEST, Rule::ClientBackoff)?;
    flag(words[28], Rule::CountBytes)?;
    flag(words[29], Rule::RaftChecks)?;
    within(words[30], 0, LONGEST, Rule::StartSpread)
}

/// Words 37 to 40, and 45 to 68: rates, links, and what each server sent.
fn network(words: &[u64], counts: &Counts) -> Judged {
    within(words[37], 0, MOST_32, Rule::Loss)?;
    within(words[38], 0, MOST_32, Rule::Duplication)?;
    within(words[39], 1, 65_536, Rule::DelayFactor)?;
    let outside = |bit: usize| bit / 8 >= counts.servers || bit % 8 >= counts.servers;
    let blocked = (0..64).filter(|bit| words[40] >> bit & 1 == 1);
    ask(!blocked.into_iter().any(outside), Rule::Links)?;
    ask(zero(&words[45 + 3 * counts.servers..69]), Rule::Senders)
}

/// Words 73 to 82: the open input.
fn input(words: &[u64], counts: &Counts) -> Judged {
    let open = &words[73..83];
    within(open[0], 0, 2, Rule::Phase)?;
    if open[0] == 0 {
        return ask(zero(open), Rule::ClosedInput);
    }
    within(open[1], 0, counts.servers as u64 - 1, Rule::Slot)?;
    within(open[2], 0, 5, Rule::Input)?;
    proposer(open, counts)?;
    verdict(open)?;
    within(open[8], 0, 2, Rule::Owed)?;
    within(open[9], 0, counts.servers as u64, Rule::Next)?;
    present(open[8], open[9], Rule::NextOfNothing)
}

/// The client, its sequence number and attempt, of a client's proposal alone.
fn proposer(open: &[u64], counts: &Counts) -> Judged {
    if open[2] == 4 {
        return ask(open[3] < counts.clients as u64, Rule::InputClient);
    }
    ask(open[3] == 0, Rule::InputClient)?;
    ask(open[4] == 0, Rule::InputSequence)?;
    ask(open[5] == 0, Rule::InputAttempt)
}

/// Accepted, or refused once it is sealed and where it can be.
fn verdict(open: &[u64]) -> Judged {
    let most = if open[0] == 2 { 2 } else { 0 };
    within(open[6], 0, most, Rule::Verdict)?;
    ask(open[6] == 0 || open[2] >= 3, Rule::VerdictOfInput)?;
    ask(open[6] == 2 || open[7] == 0, Rule::VerdictLeader)
}

/// Words 83 to 89: no table has more rows than places.
fn rows(words: &[u64], counts: &Counts) -> Judged {
    let (l, h) = (counts.log, counts.history);
    let tables = [
        (counts.events, Rule::QueueRows),
        (h, Rule::SeenRows),
        (h, Rule::LeadersRows),
        (h, Rule::RepliesRows),
        (h, Rule::ConfirmationsRows),
        (l, Rule::AppliedRows),
        (32, Rule::ViolationsRows),
    ];
    for (rows, (places, rule)) in words[83..].iter().zip(tables) {
        within(*rows, 0, places as u64, rule)?;
    }
    Ok(())
}

/// The violations that are kept: time, one of the eight checks, up to five numbers.
fn violations(table: &[u64], rows: u64) -> Judged {
    for row in used(table, rows, 8, Rule::ViolationsUnused)?.chunks_exact(8) {
        within(row[1], 0, 7, Rule::ViolationCheck)?;
        within(row[2], 0, 5, Rule::ViolationCount)?;
        ask(zero(&row[3 + row[2] as usize..]), Rule::ViolationNumbers)?;
    }
    Ok(())
}
