//! How fast the reference is, to be set beside the port. Run it in a release build.

use std::hint::black_box;
use std::time::{Duration, Instant};

use bench::{ENTRIES, QUEUED, fastest};
use consensus::{Command, Entry, LogIndex, NodeId, Payload, Rng, Storage, Term, Timer};
use node::Message;
use nodes::{Correct, Raft};
use sim::leaves::{self, EventQueue, TrackedStorage};
use sim::{SimConfig, Simulation};

fn main() {
    println!("| measurement | reference |");
    println!("|---|---|");
    for (servers, clients, count_bytes) in [(3, 3, true), (3, 3, false), (5, 8, true)] {
        let (events, time) = fastest(|| events(servers, clients, count_bytes));
        let counted = if count_bytes {
            ""
        } else {
            ", bytes not counted"
        };
        let rate = events as f64 / time.as_secs_f64();
        println!(
            "| Raft, {servers} servers, {clients} clients{counted}: events a second | {rate:.0} |"
        );
    }
    let (pairs, time) = fastest(queue);
    println!(
        "| queue (Q-10): {pairs} pushes and pops at {QUEUED} queued, ns a push and a pop | {:.1} |",
        time.as_nanos() as f64 / pairs as f64
    );
    let (truncations, time) = fastest(truncations);
    println!(
        "| truncation (Q-4): {ENTRIES} entries of 128 bytes, µs a truncation | {:.1} |",
        time.as_nanos() as f64 / 1_000.0 / truncations as f64
    );
}

/// Twenty simulated seconds of a Raft without faults.
fn events(servers: usize, clients: usize, count_bytes: bool) -> (u64, Duration) {
    let config = SimConfig {
        servers,
        clients,
        count_bytes,
        raft_checks: true,
        ..SimConfig::default()
    };
    let begun = Instant::now();
    let mut sim = Simulation::<Raft<Correct>>::new(config, 1);
    sim.run_until(leaves::time(20_000_000_000));
    let time = begun.elapsed();
    assert_eq!(sim.violation_count(), 0);
    (sim.events(), time)
}

/// An event of the size that the simulation's have with the Raft's messages.
#[allow(dead_code)] // only timers are pushed; the message gives the size
enum Event {
    Deliver {
        from: NodeId,
        to: NodeId,
        message: Message,
    },
    Timer {
        slot: usize,
        timer: Timer,
        generation: u64,
    },
}

/// A million pushes and pops of timer events.
fn queue() -> (u64, Duration) {
    const PAIRS: u64 = 1_000_000;
    let mut rng = Rng::new(1);
    let mut queue = EventQueue::default();
    let timer = |generation| Event::Timer {
        slot: 1,
        timer: Timer::Election,
        generation,
    };
    let after = |rng: &mut Rng| 150_000_000 + rng.below(150_000_000);
    for generation in 0..QUEUED {
        queue.push(leaves::time(after(&mut rng)), timer(generation));
    }
    let begun = Instant::now();
    for generation in 0..PAIRS {
        let (now, event) = queue.pop().expect("events are queued");
        black_box(event);
        let delay = Duration::from_nanos(after(&mut rng));
        queue.push(now + delay, timer(generation));
    }
    (PAIRS, begun.elapsed())
}

/// Truncations of a full log; filling it again is not counted.
fn truncations() -> (u64, Duration) {
    const TIMES: u64 = 200;
    let entry = Entry {
        term: Term(1),
        payload: Payload::Command(Command(vec![7; 128])),
    };
    let mut time = Duration::ZERO;
    for _ in 0..TIMES {
        let mut disk = TrackedStorage::default();
        for index in 1..=ENTRIES {
            disk.put(LogIndex(index), entry.clone());
        }
        disk.sync();
        let begun = Instant::now();
        disk.truncate(LogIndex(1));
        time += begun.elapsed();
        assert_eq!(disk.discarded(), ENTRIES);
    }
    (TIMES, time)
}
