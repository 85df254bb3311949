//! The tables behind the servers.

use super::counts::Counts;
use super::events;
use super::rows::{payload, rising, used, zero};
use super::rule::{Judged, Rule, ask, flag, present, within};

/// Every table, with its rows as the header counts them.
pub fn judge(words: &[u64], counts: &Counts) -> Judged {
    let part = |begin: usize, end: usize| &words[begin..end];
    let [queue, seen_at, leaders_at] = [counts.queue(), counts.seen(), counts.leaders()];
    let [replies_at, confirmations_at] = [counts.replies(), counts.confirmations()];
    let [applied_at, clients_at] = [counts.applied(), counts.first_client()];
    events::judge(part(queue, seen_at), words[83], counts)?;
    seen(part(seen_at, leaders_at), words[84], counts)?;
    leaders(part(leaders_at, replies_at), words[85], counts)?;
    replies(part(replies_at, confirmations_at), words[86], counts)?;
    confirmations(part(confirmations_at, applied_at), words[87])?;
    applied(part(applied_at, clients_at), words[88], counts)?;
    clients(part(clients_at, counts.end()), counts)
}

/// Entries seen: index and term, rising, and the payload.
fn seen(table: &[u64], rows: u64, counts: &Counts) -> Judged {
    let rows = used(table, rows, counts.entry(), Rule::SeenUnused)?;
    for row in rows.chunks_exact(counts.entry()) {
        within(row[0], 1, counts.log as u64, Rule::SeenIndex)?;
        payload(&row[2..], counts.payload, Rule::SeenMark, Rule::SeenBytes)?;
    }
    ask(rising(rows, counts.entry()), Rule::SeenOrder)
}

/// Leaders: term, rising, and the server.
fn leaders(table: &[u64], rows: u64, counts: &Counts) -> Judged {
    let rows = used(table, rows, 2, Rule::LeadersUnused)?.chunks_exact(2);
    for row in rows.clone() {
        within(row[1], 1, counts.servers as u64, Rule::LeadersServer)?;
    }
    let rising = rows.map(|row| row[0]).is_sorted_by(|one, next| one < next);
    ask(rising, Rule::LeadersOrder)
}

/// Replies: two times, an index that was applied, client, sequence number.
fn replies(table: &[u64], rows: u64, counts: &Counts) -> Judged {
    for row in used(table, rows, 5, Rule::RepliesUnused)?.chunks_exact(5) {
        within(row[2], 0, counts.log as u64, Rule::ReplyIndex)?;
        ask(row[3] < counts.clients as u64, Rule::ReplyClient)?;
    }
    Ok(())
}

/// Confirmations: request, flag, read index.
fn confirmations(table: &[u64], rows: u64) -> Judged {
    for row in used(table, rows, 3, Rule::ConfirmationsUnused)?.chunks_exact(3) {
        flag(row[1], Rule::ConfirmationFlag)?;
        present(row[1], row[2], Rule::ConfirmationIndex)?;
    }
    Ok(())
}

/// Applied payloads, by index from 1.
fn applied(table: &[u64], rows: u64, counts: &Counts) -> Judged {
    let words = 1 + counts.payload_words();
    for row in used(table, rows, words, Rule::AppliedUnused)?.chunks_exact(words) {
        payload(row, counts.payload, Rule::AppliedMark, Rule::AppliedBytes)?;
    }
    Ok(())
}

/// Clients: target, numbers, and the command that is outstanding.
fn clients(table: &[u64], counts: &Counts) -> Judged {
    for row in table.chunks_exact(8) {
        ask(row[0] < counts.servers as u64, Rule::ClientTarget)?;
        flag(row[3], Rule::ClientFlag)?;
        ask(row[3] == 1 || zero(&row[4..6]), Rule::ClientOutstanding)?;
        ask(zero(&row[6..8]), Rule::ClientUnused)?;
    }
    Ok(())
}
