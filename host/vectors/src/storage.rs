//! Records and disks.

use consensus::{Command, Entry, HardState, LogIndex, NodeId, Payload, Rng, Storage, Term};
use sim::leaves::TrackedStorage;

use crate::File;

/// Hard state: 0, term, 1 where voted, vote, 0. Put: 1, index, term, payload kind, bytes of the
/// command. Truncate: 2, from, 0, 0, 0. Then the bytes that the record counts.
pub(crate) fn record_lengths() -> File {
    let edges = (0..=9).flat_map(|k| {
        let power = 1u64 << (7 * k);
        [power - 1, power]
    });
    let edges: Vec<u64> = edges.chain([u64::MAX]).collect();
    let mut rows = Vec::new();
    for &number in &edges {
        rows.push(record([0, number, 0, 0, 0]));
        rows.push(record([0, 1, 1, number, 0]));
        rows.push(record([1, number.max(1), 1, 0, 0]));
        rows.push(record([1, 1, number, 0, 0]));
        rows.push(record([2, number, 0, 0, 0]));
    }
    for length in [0, 1, 12, 126, 127, 128, 129, 255, 256] {
        rows.push(record([1, 1, 1, 1, length]));
        rows.push(record([1, u64::MAX, u64::MAX, 1, length]));
    }
    rows.push(record([0, u64::MAX, 1, u64::MAX, 0]));
    File::new("records.bin", rows)
}

fn record(fields: [u64; 5]) -> [u64; 6] {
    let [kind, first, second, third, length] = fields;
    let mut disk = TrackedStorage::default();
    match kind {
        0 => disk.set_hard_state(hard_state(first, second, third)),
        1 => {
            let payload = match third {
                0 => Payload::Noop,
                _ => Payload::Command(Command(vec![0; length as usize])),
            };
            let term = Term(second);
            disk.put(LogIndex(first), Entry { term, payload });
        }
        _ => disk.truncate(LogIndex(first)),
    }
    disk.sync();
    [kind, first, second, third, length, disk.take_synced_bytes()]
}

fn hard_state(term: u64, voted: u64, vote: u64) -> HardState {
    HardState {
        term: Term(term),
        voted_for: (voted != 0).then_some(NodeId(vote)),
    }
}

/// Places of each log of a disk.
const PLACES: usize = 8;

/// Operations on one disk, each with what it leaves.
///
/// The operation: 0, term, 1 where voted, vote sets the hard state; 1, index, term, payload puts;
/// 2, from, 0, 0 truncates; 3 syncs; 4 crashes. Then: 1 where a sync wrote something, the bytes
/// that it wrote; term, 1 where voted, vote; entries, last index, gaps, discarded; the durable
/// term, 1 where voted, vote; of each place of the log its payload and term; the same of each
/// place of the durable log.
pub(crate) fn disk() -> File {
    let mut rng = Rng::new(4);
    let mut disk = TrackedStorage::default();
    let rows = (0..150).map(|_| {
        let operation = match rng.below(14) {
            0 | 1 => [0, number(&mut rng), rng.below(2), number(&mut rng)],
            2 => [2, rng.below(PLACES as u64 + 3), 0, 0],
            3 => [2, rng.next_u64(), 0, 0],
            4 | 5 => [3, 0, 0, 0],
            6 => [4, 0, 0, 0],
            _ => {
                let index = 1 + rng.below(PLACES as u64);
                [1, index, number(&mut rng), payload_word(&mut rng)]
            }
        };
        operate(&mut disk, operation)
    });
    File::new("disk.bin", rows)
}

/// A number of any size, small ones often.
fn number(rng: &mut Rng) -> u64 {
    match rng.below(2) {
        0 => rng.below(4),
        _ => rng.next_u64() >> rng.below(64),
    }
}

/// A noop or a command of up to seven bytes, as a word; some are drawn often.
fn payload_word(rng: &mut Rng) -> u64 {
    let length = rng.below(8) as usize;
    let payload = match rng.below(5) {
        0 => Payload::Noop,
        1 => Payload::Command(Command(vec![0; length])),
        2 => Payload::Command(Command(vec![7])),
        _ => {
            let bytes = (0..length).map(|_| rng.next_u64() as u8);
            Payload::Command(Command(bytes.collect()))
        }
    };
    packed(&payload)
}

/// A payload as a word: the lowest byte is 1 for a noop, else 2 and the length of the command,
/// whose bytes follow.
fn packed(payload: &Payload) -> u64 {
    let mut bytes = [0; 8];
    match payload {
        Payload::Noop => bytes[0] = 1,
        Payload::Command(Command(command)) => {
            bytes[0] = 2 + command.len() as u8;
            bytes[1..=command.len()].copy_from_slice(command);
        }
    }
    u64::from_le_bytes(bytes)
}

fn unpacked(word: u64) -> Payload {
    let bytes = word.to_le_bytes();
    match bytes[0] {
        1 => Payload::Noop,
        mark => Payload::Command(Command(bytes[1..usize::from(mark) - 1].to_vec())),
    }
}

/// What each place of a log holds: payload and term, zeros where there is no entry.
fn places(storage: &impl Storage) -> impl Iterator<Item = u64> {
    (1..=PLACES as u64).flat_map(move |index| {
        let entry = storage.entry(LogIndex(index));
        entry.map_or([0, 0], |entry| [packed(&entry.payload), entry.term.0])
    })
}

fn operate(disk: &mut TrackedStorage, operation: [u64; 4]) -> [u64; 16 + 4 * PLACES] {
    let [kind, first, second, third] = operation;
    let mut synced = false;
    match kind {
        0 => disk.set_hard_state(hard_state(first, second, third)),
        1 => {
            let (term, payload) = (Term(second), unpacked(third));
            disk.put(LogIndex(first), Entry { term, payload });
        }
        2 => disk.truncate(LogIndex(first)),
        3 => synced = disk.sync(),
        _ => disk.crash(),
    }
    let state = numbers::hard_state(disk.hard_state());
    let log = numbers::log(disk.mem());
    // What a crash leaves is what is durable.
    let mut durable = disk.clone();
    durable.crash();
    let kept = numbers::hard_state(durable.hard_state());
    let answers = [
        synced.into(),
        disk.take_synced_bytes(),
        state.term,
        state.voted,
        state.vote,
        log.count,
        log.last,
        disk.gaps(),
        disk.discarded(),
        kept.term,
        kept.voted,
        kept.vote,
    ];
    let told = operation.into_iter().chain(answers);
    let told = told.chain(places(disk)).chain(places(&durable));
    let words: Vec<u64> = told.collect();
    words.try_into().expect("as many words as a row has")
}

#[cfg(test)]
mod tests {
    use super::*;

    #[test]
    fn lengths_are_as_document_01_has_them() {
        assert_eq!(record([0, 0, 0, 0, 0])[5], 7);
        assert_eq!(record([1, 1, 1, 1, 12])[5], 21);
        assert_eq!(record([2, 128, 0, 0, 0])[5], 7);
    }

    #[test]
    fn payloads_go_there_and_back() {
        let command = |bytes: &[u8]| Payload::Command(Command(bytes.to_vec()));
        for payload in [Payload::Noop, command(&[]), command(&[0; 7]), command(&[9])] {
            assert_eq!(unpacked(packed(&payload)), payload);
        }
    }

    #[test]
    fn both_logs_hold_entries_that_the_other_does_not() {
        let rows = disk().rows;
        let (current, durable) = (16..16 + 2 * PLACES, 16 + 2 * PLACES..16 + 4 * PLACES);
        assert!(
            rows.iter()
                .any(|row| row[current.clone()] != row[durable.clone()])
        );
        for kind in 0..5 {
            assert!(rows.iter().any(|row| row[0] == kind), "no operation {kind}");
        }
        for row in rows.iter().filter(|row| row[0] == 4) {
            assert_eq!(row[current.clone()], row[durable.clone()]);
        }
        let lost = rows.windows(2).filter(|pair| pair[1][0] == 4);
        assert!(
            lost.clone()
                .any(|pair| pair[0][current.clone()] != pair[1][current.clone()])
        );
        let kept = rows.windows(2).filter(|pair| pair[1][0] == 3);
        assert!(
            kept.clone()
                .any(|pair| pair[0][durable.clone()] != pair[1][durable.clone()])
        );
    }
}
