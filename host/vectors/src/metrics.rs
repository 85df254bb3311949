//! Counters.

use consensus::{NodeId, Rng};
use port::kinds::refusal;
use sim::{Counts, Metrics, leaves};

use crate::File;

/// Servers that send.
const SENDERS: u64 = 8;

/// Operations on one set of counters, each with what it leaves.
///
/// The operation: 0, sender, bytes, entries counts a message; 1, entries, 0, 0 those delivered to
/// a candidate or leader; 2, bytes, 0, 0 a sync; 3, 0, 0, 0 a reply; 4, value, 0, 0 makes every
/// counter that value; 5, sender, value, 0 that sender's. Then: 0, or 10 where a counter would pass 64 bits and nothing changes;
/// messages, bytes, entries; entries to leaders, syncs, bytes synced, replies; and of each sender
/// messages, bytes, entries.
pub(crate) fn counters() -> File {
    let mut metrics = Metrics::default();
    let rows = operations().into_iter().map(|operation| {
        let answer = match fits(&metrics, operation) {
            true => refusal::NONE,
            false => refusal::ROOM,
        };
        if answer == refusal::NONE {
            operate(&mut metrics, operation);
        }
        let counters = [
            metrics.entries_to_leaders,
            metrics.fsyncs,
            metrics.storage_bytes,
            metrics.client_replies,
        ];
        let by_sender = (1..=SENDERS).flat_map(|id| numbers(metrics.sent_by(NodeId(id))));
        let told = operation.into_iter().chain([answer]);
        let told = told.chain(numbers(metrics.sent)).chain(counters);
        let words: Vec<u64> = told.chain(by_sender).collect();
        words.try_into().expect("as many words as a row has")
    });
    File::new::<36>("metrics.bin", rows)
}

fn operations() -> Vec<[u64; 4]> {
    let mut rng = Rng::new(16);
    let mut operations = Vec::new();
    for _ in 0..40 {
        operations.push(match rng.below(6) {
            0 => [1, rng.next_u64() >> 33, 0, 0],
            1 => [2, rng.next_u64() >> 20, 0, 0],
            2 => [3, 0, 0, 0],
            _ => [
                0,
                1 + rng.below(SENDERS),
                rng.next_u64() >> 12,
                rng.next_u64() >> 33,
            ],
        });
    }
    operations.extend(last_sums());
    operations
}

/// Sums at the end of 64 bits and past it, of each counter.
fn last_sums() -> Vec<[u64; 4]> {
    let half = 1 << 63;
    let mut operations = vec![[4, half, 0, 0]];
    for most in [half, half - 1] {
        operations.extend([
            [0, 3, most, 1],
            [0, 4, 1, most],
            [1, most, 0, 0],
            [2, most, 0, 0],
        ]);
    }
    for value in [u64::MAX - 1, u64::MAX] {
        operations.push([4, value, 0, 0]);
        for _ in 0..2 {
            operations.extend([[0, 8, 0, 0], [1, 0, 0, 0], [2, 0, 0, 0], [3, 0, 0, 0]]);
        }
    }
    // The total has room, the sender's counts have not.
    operations.extend([
        [4, 0, 0, 0],
        [5, 2, half, 0],
        [0, 2, half, 0],
        [0, 2, 0, half],
    ]);
    operations.extend([
        [0, 2, half - 1, half - 1],
        [5, 2, u64::MAX, 0],
        [0, 2, 0, 0],
    ]);
    operations
}

/// Whether every sum has 64 bits.
fn fits(metrics: &Metrics, [kind, first, second, third]: [u64; 4]) -> bool {
    let sums = match kind {
        0 => {
            let more = [1, second, third];
            let sender = numbers(metrics.sent_by(NodeId(first)));
            let both = numbers(metrics.sent).into_iter().zip(more);
            both.chain(sender.into_iter().zip(more)).collect()
        }
        1 => vec![(metrics.entries_to_leaders, first)],
        2 => vec![(metrics.fsyncs, 1), (metrics.storage_bytes, first)],
        3 => vec![(metrics.client_replies, 1)],
        _ => Vec::new(),
    };
    sums.iter()
        .all(|(now, more)| now.checked_add(*more).is_some())
}

/// A sync, a delivery and a reply are counted as simulation.rs counts them.
fn operate(metrics: &mut Metrics, [kind, first, second, third]: [u64; 4]) {
    match kind {
        0 => leaves::record_send(metrics, NodeId(first), second, third),
        1 => metrics.entries_to_leaders += first,
        2 => {
            metrics.fsyncs += 1;
            metrics.storage_bytes += first;
        }
        3 => metrics.client_replies += 1,
        4 => *metrics = all(first),
        _ => {
            metrics.by_sender.insert(NodeId(first), counts(second));
        }
    }
}

fn counts(value: u64) -> Counts {
    Counts {
        messages: value,
        bytes: value,
        entries: value,
    }
}

/// Every counter at one value.
fn all(value: u64) -> Metrics {
    Metrics {
        sent: counts(value),
        by_sender: (1..=SENDERS)
            .map(|id| (NodeId(id), counts(value)))
            .collect(),
        entries_to_leaders: value,
        fsyncs: value,
        storage_bytes: value,
        client_replies: value,
    }
}

fn numbers(counts: Counts) -> [u64; 3] {
    [counts.messages, counts.bytes, counts.entries]
}

#[cfg(test)]
mod tests {
    use super::*;

    #[test]
    fn every_operation_is_accepted_and_refused() {
        let rows = counters().rows;
        for kind in 0..4 {
            for answer in [refusal::NONE, refusal::ROOM] {
                let found = rows.iter().any(|row| row[0] == kind && row[4] == answer);
                assert!(found, "operation {kind} is never answered {answer}");
            }
        }
        let sender = rows
            .iter()
            .filter(|row| row[4] == refusal::ROOM && row[5] < 9);
        assert!(
            sender.count() > 2,
            "a sender's counters are never full alone"
        );
    }
}
