//! The order of events, and what they carry.

use consensus::Rng;
use port::kinds::fault;
use sim::leaves::{self, EventQueue};

use crate::{File, padded};

/// Words of the longest message.
const MESSAGE: usize = 4;

/// An event: its kind and four numbers, and the bytes of a delivery's message.
type Event = ([u64; 5], Vec<u8>);

/// Operations on one queue: 0, 1, time, event pushes; 1, 1, time, event takes that one; 1 and
/// zeros finds none.
///
/// The event: its kind in the order of declaration, four numbers, the length of its message, the
/// message's bytes.
pub(crate) fn order() -> File {
    let mut rng = Rng::new(9);
    let mut queue = EventQueue::default();
    let mut rows = Vec::new();
    let mut pushed = 0;
    // C9 of document 01, then any order with many equal times.
    let first = [(5, true), (3, true), (5, true)].into_iter();
    let first = first.chain([(0, false); 4]);
    for number in 0..300u64 {
        let (time, push) = match first.clone().nth(number as usize) {
            Some(given) => given,
            None => (time(&mut rng), rng.below(9) < 5),
        };
        if push {
            let event = event(&mut rng, pushed);
            pushed += 1;
            rows.push(row(0, time, &event));
            queue.push(leaves::time(time), event);
        } else {
            rows.push(taken(queue.pop()));
        }
    }
    while let Some(earliest) = queue.pop() {
        rows.push(taken(Some(earliest)));
    }
    File::new("queue.bin", rows)
}

fn taken(earliest: Option<(sim::SimTime, Event)>) -> [u64; 9 + MESSAGE] {
    match earliest {
        Some((time, event)) => row(1, leaves::nanos(time), &event),
        None => std::array::from_fn(|place| (place == 0).into()),
    }
}

fn row(operation: u64, time: u64, (numbers, message): &Event) -> [u64; 9 + MESSAGE] {
    let mut row = [0; 9 + MESSAGE];
    row[..3].copy_from_slice(&[operation, 1, time]);
    row[3..8].copy_from_slice(numbers);
    row[8] = message.len() as u64;
    row[9..].copy_from_slice(&padded::<MESSAGE>(message));
    row
}

/// Often one of six times, else any.
fn time(rng: &mut Rng) -> u64 {
    match rng.below(8) {
        0 => rng.next_u64(),
        _ => rng.below(6),
    }
}

/// One event after another of each kind: a start, a delivery, a timer, a fault, a client's send,
/// arrival, redirect, retry, reply, timeout.
fn event(rng: &mut Rng, pushed: u64) -> Event {
    let kind = pushed % 10;
    let (a, b, c, d) = (any(rng), any(rng), any(rng), any(rng));
    let numbers = match kind {
        0 | 4 => [kind, a, 0, 0, 0],
        1 | 8 => [kind, a, b, c, 0],
        2 => [kind, a, rng.below(2), c, 0],
        3 => {
            let [fault, first, second] = fault(rng, pushed / 10 % (fault::HEAL_ALL + 1));
            [kind, fault, first, second, 0]
        }
        5 => [kind, a, b, c, d],
        6 => match rng.below(2) {
            0 => [kind, a, b, 0, 0],
            _ => [kind, a, b, 1, d],
        },
        _ => [kind, a, b, 0, 0],
    };
    let length = match kind {
        1 => rng.below(8 * MESSAGE as u64 + 1),
        _ => 0,
    };
    let message = (0..length).map(|_| rng.next_u64() as u8).collect();
    (numbers, message)
}

/// A fault of a kind and its two numbers, 0 where it has fewer.
fn fault(rng: &mut Rng, kind: u64) -> [u64; 3] {
    match kind {
        fault::HEAL_LINKS | fault::HEAL_ALL => [kind, 0, 0],
        fault::SET_LOSS | fault::SET_DUPLICATION => [kind, rng.next_u64() >> 32, 0],
        fault::BLOCK | fault::UNBLOCK => [kind, any(rng), any(rng)],
        _ => [kind, any(rng), 0],
    }
}

/// A number of any size.
fn any(rng: &mut Rng) -> u64 {
    rng.next_u64() >> rng.below(64)
}

#[cfg(test)]
mod tests {
    use super::*;

    #[test]
    fn equal_times_leave_in_push_order() {
        let rows = order().rows;
        let event = |row: usize| rows[row][2..].to_vec();
        assert_eq!(
            [event(3), event(4), event(5)],
            [event(1), event(0), event(2)]
        );
        assert_eq!(rows[6], taken(None));
    }

    #[test]
    fn every_kind_of_event_and_fault_is_taken() {
        let rows = order().rows;
        let taken: Vec<_> = rows.iter().filter(|row| row[..2] == [1, 1]).collect();
        for kind in 0..10 {
            assert!(taken.iter().any(|row| row[3] == kind), "no event {kind}");
        }
        for kind in 0..=fault::HEAL_ALL {
            let found = taken.iter().any(|row| row[3] == 3 && row[4] == kind);
            assert!(found, "no fault {kind}");
        }
        let lengths = taken.iter().filter(|row| row[3] == 1).map(|row| row[8]);
        assert!(
            lengths.clone().any(|length| length > 24) && lengths.clone().any(|length| length < 8)
        );
    }
}
