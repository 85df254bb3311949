//! Log matching.

use consensus::{Command, Entry, LogIndex, MemStorage, NodeId, Payload, Rng, Storage, Term};
use sim::SimTime;
use sim::leaves::Checker;

use crate::File;

/// Places of a log.
const PLACES: usize = 8;

/// The places of one log, 0 for no entry, else 256 × term + the one byte of the command; the
/// places of the other; 1 where they fail, the term, the index, the difference.
pub(crate) fn log_matching() -> File {
    // C11 of document 01: other payloads alone do not fail; with an equal entry behind, they do.
    let mut cases = vec![
        ([257, 0, 0, 0, 0, 0, 0, 0], [258, 0, 0, 0, 0, 0, 0, 0]),
        ([257, 259, 0, 0, 0, 0, 0, 0], [258, 259, 0, 0, 0, 0, 0, 0]),
    ];
    let mut rng = Rng::new(11);
    for _ in 0..46 {
        let log = std::array::from_fn(|_| place(&mut rng));
        let mut other = log;
        for _ in 0..rng.below(3) {
            other[rng.below(PLACES as u64) as usize] = place(&mut rng);
        }
        cases.push((log, other));
    }
    let rows = cases.into_iter().map(|(log, other)| {
        let mut row = [0; 2 * PLACES + 4];
        row[..PLACES].copy_from_slice(&log);
        row[PLACES..2 * PLACES].copy_from_slice(&other);
        row[2 * PLACES..].copy_from_slice(&failure(&storage(log), &storage(other)));
        row
    });
    File::new("log_matching.bin", rows)
}

fn place(rng: &mut Rng) -> u64 {
    match rng.below(6) {
        0 => 0,
        _ => 256 * (1 + rng.below(3)) + rng.below(3),
    }
}

fn storage(places: [u64; PLACES]) -> MemStorage {
    let mut storage = MemStorage::new();
    for (index, place) in (1..).zip(places) {
        if place != 0 {
            let term = Term(place / 256);
            let payload = Payload::Command(Command(vec![place as u8]));
            storage.put(LogIndex(index), Entry { term, payload });
        }
    }
    storage
}

fn failure(log: &MemStorage, other: &MemStorage) -> [u64; 4] {
    let mut checker = Checker::new(2, true);
    checker.check_log_matching(SimTime::ZERO, &[(NodeId(1), log), (NodeId(2), other)]);
    let violation = checker.violations().first();
    let [_, _, term, index, difference] = numbers::violation(violation).numbers;
    [violation.is_some().into(), term, index, difference]
}

#[cfg(test)]
mod tests {
    use super::*;

    #[test]
    fn failures_are_as_document_01_has_them() {
        let rows = log_matching().rows;
        assert_eq!(rows[0][16..], [0, 0, 0, 0]);
        assert_eq!(rows[1][16..], [1, 1, 2, 1]);
        let failing = rows.iter().filter(|row| row[16] == 1).count();
        assert!((10..40).contains(&failing), "{failing} of {}", rows.len());
    }
}
