//! Chaos schedules.

use consensus::{NodeId, Rng};
use port::kinds::refusal;
use port::{Chaos, ENTRY};
use sim::chaos_schedule;

use crate::{File, padded};

/// A millisecond in nanoseconds.
const MS: u64 = 1_000_000;

/// Bytes of a row.
const ROW: usize = 128;

/// What a list holds before anything writes it.
const OLD: u8 = 0xFF;

/// For each schedule a head, then the bytes of the list after the call.
///
/// The head: the refusal's number or 0, number of entries, the servers (one byte each, 0 behind
/// the last), start, end, mean gap, longest duration, state, next state, length of the list.
pub(crate) fn schedules() -> File {
    let cases: [(&[u8], [u64; 4]); 12] = [
        (&[1], [0, 2_000, 100, 400]),
        (&[1, 2], [0, 1_500, 100, 400]),
        (&[1, 2, 3], [0, 3_000, 100, 400]),
        (&[1, 2, 3], [500, 1_000, 40, 100]),
        (&[1, 2, 3], [500, 1_000, 40, 50]),
        (&[1, 2, 3], [500, 1_000, 40, 0]),
        (&[3, 1, 2], [0, 900, 50, 5_000]),
        (&[1, 2, 3, 4, 5], [0, 2_000, 100, 300]),
        (&[1, 2, 3, 4, 5, 6, 7, 8], [0, 2_000, 100, 300]),
        (&[8, 8, 3], [0, 1_000, 80, 300]),
        (&[2, 1], [700, 700, 10, 100]),
        (&[1, 2, 3], [700, 10, 10, 100]),
    ];
    let mut rows = Vec::new();
    for (seed, (servers, times)) in cases.into_iter().enumerate() {
        let schedule = Schedule::new(servers, times, seed as u64);
        rows.extend(schedule.lent(schedule.bytes.len()));
    }
    for (servers, times) in [cases[0], cases[3], cases[10]] {
        let schedule = Schedule::new(servers, times, 3);
        for length in lengths(schedule.bytes.len()) {
            rows.extend(schedule.lent(length));
        }
    }
    rows.extend(Schedule::new(&[1], [0; 4], 0).lent(2 * ENTRY));
    for (servers, end, number) in [
        (&[][..], 900, refusal::SERVERS),
        (&[1, 9], 900, refusal::SERVER),
        (&[0, 1], u64::MAX / MS, refusal::SERVER),
        (&[1, 2], u64::MAX / MS, refusal::RANGE),
    ] {
        rows.extend(refused(servers, [0, end, 50, 100], number));
    }
    File::new("schedules.bin", rows)
}

/// Lengths of a list for a schedule of so many bytes: none, a place too few, a byte too few, and
/// with a part of a place, a place, and two places and a byte to spare.
fn lengths(bytes: usize) -> [usize; 6] {
    [
        0,
        bytes - ENTRY,
        bytes - 1,
        bytes + 17,
        bytes + ENTRY,
        bytes + 2 * ENTRY + 1,
    ]
}

/// A schedule of the reference.
struct Schedule {
    /// Servers, the four times and the generator's state.
    asked: [u64; 6],
    /// The generator's state after it.
    after: u64,
    /// The bytes of its entries.
    bytes: Vec<u8>,
}

impl Schedule {
    fn new(servers: &[u8], times: [u64; 4], seed: u64) -> Self {
        let [start, end, mean_gap, max_duration] = times.map(|ms| ms * MS);
        let chaos = Chaos {
            start,
            end,
            mean_gap,
            max_duration,
        };
        let ids: Vec<NodeId> = servers.iter().map(|id| NodeId((*id).into())).collect();
        let mut generator = Rng::new(seed);
        let made = chaos_schedule(&ids, &numbers::chaos_of(&chaos), &mut generator);
        let [list] = padded::<1>(servers);
        let words = numbers::schedule(&made).into_iter().flatten();
        Schedule {
            asked: [list, start, end, mean_gap, max_duration, seed],
            after: numbers::generator(&generator),
            bytes: words.flat_map(|word| word.to_le_bytes()).collect(),
        }
    }

    /// The rows of the schedule in a list of so many bytes.
    fn lent(&self, length: usize) -> Vec<[u64; 16]> {
        let mut list = vec![OLD; length];
        let seed = self.asked[5];
        match list.get_mut(..self.bytes.len()) {
            Some(places) => {
                places.copy_from_slice(&self.bytes);
                let count = (self.bytes.len() / ENTRY) as u64;
                rows([0, count], self.asked, self.after, &list)
            }
            None => rows([refusal::ROOM, 0], self.asked, seed, &list),
        }
    }
}

/// The rows of a schedule that is refused whatever the list is.
fn refused(servers: &[u8], times: [u64; 4], number: u64) -> Vec<[u64; 16]> {
    let [servers] = padded::<1>(servers);
    let [start, end, mean_gap, max_duration] = times.map(|ms| ms * MS);
    let asked = [servers, start, end, mean_gap, max_duration, 7];
    rows([number, 0], asked, 7, &[OLD; 70])
}

/// A head, and the rows of the list.
fn rows(answer: [u64; 2], asked: [u64; 6], after: u64, list: &[u8]) -> Vec<[u64; 16]> {
    let mut head = [0; 16];
    head[..2].copy_from_slice(&answer);
    head[2..8].copy_from_slice(&asked);
    head[8] = after;
    head[9] = list.len() as u64;
    let places = list.chunks(ROW).map(padded::<16>);
    std::iter::once(head).chain(places).collect()
}

#[cfg(test)]
mod tests {
    use super::*;
    use port::kinds::fault;

    /// The head of each schedule, and the words of its list.
    fn lists() -> Vec<(Vec<u64>, Vec<u64>)> {
        let mut rows = schedules().rows.into_iter();
        let mut made = Vec::new();
        while let Some(head) = rows.next() {
            let length = (head[9] as usize).div_ceil(ROW);
            let list = rows.by_ref().take(length).flatten().collect();
            made.push((head, list));
        }
        made
    }

    /// The entries of each schedule that is made.
    fn entries() -> Vec<Vec<[u64; 4]>> {
        let made = lists().into_iter().filter(|(head, _)| head[0] == 0);
        let entry = |words: &[u64]| words.try_into().expect("four words");
        let entries = |(head, list): (Vec<u64>, Vec<u64>)| {
            let entries = list.chunks(ENTRY / 8).map(entry);
            entries.take(head[1] as usize).collect()
        };
        made.map(entries).collect()
    }

    #[test]
    fn every_schedule_ends_with_heal_all() {
        for schedule in entries() {
            let last = schedule.last().expect("a schedule has an entry");
            assert_eq!(last[1], fault::HEAL_ALL);
        }
    }

    #[test]
    fn every_fault_is_there() {
        let entries = entries().concat();
        for kind in 0..=fault::HEAL_ALL {
            assert!(entries.iter().any(|row| row[1] == kind), "no fault {kind}");
        }
    }

    #[test]
    fn every_refusal_but_a_redraw_that_gives_up_is_there() {
        let numbers: Vec<u64> = lists().iter().map(|(head, _)| head[0]).collect();
        for number in [
            refusal::SERVERS,
            refusal::SERVER,
            refusal::RANGE,
            refusal::ROOM,
        ] {
            assert!(numbers.contains(&number), "no refusal {number}");
        }
    }

    #[test]
    fn what_lies_behind_a_schedule_stays() {
        let [(_, list)] = &lists()
            .into_iter()
            .filter(|(head, _)| head[1] == 1 && head[4] == 0 && head[9] == 64)
            .collect::<Vec<_>>()[..]
        else {
            panic!("no schedule of one entry at 0 in a list of 64 bytes");
        };
        assert_eq!(list[..2], [0, fault::HEAL_ALL]);
        assert_eq!(list[4..8], [u64::MAX; 4]);
    }
}
