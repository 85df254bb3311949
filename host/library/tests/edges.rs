//! Rows and the open input, with every combination of numbers at the ends of ranges: each is accepted or refused as
//! docs/LAYOUT.md says.

#![cfg(feature = "linked")]

mod host;
mod layout;
mod second;

use host::{Lent, OLD};
use layout::{Counts, gate, judge};
use library::Library;
use port::{Limits, Port, Settings, area_length};
use trace::Call;

/// Numbers at which the answer may change: places, servers, kinds, groups of three servers, lengths, rates, factors, durations.
const EDGES: [u64; 20] = [
    0,
    1,
    2,
    3,
    4,
    7,
    12,
    13,
    17,
    0x0707,
    0x0801,
    0x0700_0000_0000_0000,
    0x0800_0000_0000_0000,
    65_536,
    65_537,
    (1 << 32) - 1,
    1 << 32,
    1 << 40,
    (1 << 40) + 1,
    u64::MAX,
];

/// A run of three servers and two clients, started.
fn started() -> Lent {
    let settings = Settings {
        servers: 3,
        heartbeat_interval: 1,
        election_timeout_min: 2,
        election_timeout_max: 2,
        max_entries_per_message: 1,
        max_entries_in_flight: 1,
        clients: 2,
        ..Settings::default()
    };
    let limits = Limits {
        log: 12,
        payload: 13,
        message: 12,
        events: 4,
        writes: 3,
        history: 2,
    };
    let start = Call::Start {
        settings: Box::new(settings),
        limits: Box::new(limits),
        seed: 1,
    };
    let mut lent = Lent::new(&vec![OLD; area_length(&settings, &limits) as usize]);
    assert_eq!(lent.make(&start, 0).numbers.refusal(), 0);
    lent
}

/// Writes every combination of these numbers, one of each list a word, and holds the library to the judge. Answers how
/// many are accepted.
fn accepted(lent: &mut Lent, word: usize, lists: &[&[u64]]) -> usize {
    if let [first, rest @ ..] = lists {
        let each = first.iter().map(|value| {
            lent.set(word, *value);
            accepted(lent, word + 1, rest)
        });
        return each.sum();
    }
    let answer = Library.read_run(lent.area());
    let before: Vec<u64> = (word - 10..word).map(|word| lent.word(word)).collect();
    let verdict = judge(lent.area());
    assert_eq!(
        answer.refusal,
        gate(lent.area()),
        "{before:?} before word {word}: {verdict:?}"
    );
    usize::from(answer.refusal == 0)
}

#[test]
fn events() {
    let mut lent = started();
    lent.set(83, 1);
    let row = Counts::of(lent.area()).queue();
    let kinds: Vec<u64> = (0..11).collect();
    let first: Vec<u64> = (0..15).collect();
    let (fourth, length) = (&[0, 5, u64::MAX], &[0, 5, 13]);
    let lists = [&[0], &kinds[..], &first, &EDGES, &EDGES, fourth, length];
    assert!(accepted(&mut lent, row, &lists) > 1_000);
}

#[test]
fn waiting_writes() {
    let mut lent = started();
    let counts = Counts::of(lent.area());
    let block = counts.server(1);
    lent.set(block + 6, 1);
    let bytes = [0, 0xFF, u64::MAX];
    let lists = [&EDGES[..], &bytes, &bytes, &EDGES, &EDGES];
    assert!(accepted(&mut lent, block + counts.waiting(), &lists) > 1_000);
}

#[test]
fn open_inputs() {
    let mut lent = started();
    let phases = [0, 1, 2, 3];
    let slots = [0, 2, 3];
    let inputs = [0, 1, 2, 3, 4, 5, 6];
    let clients = [0, 1, 2];
    let any = [0, u64::MAX];
    let next = [0, 1, 3, 4];
    let lists: [&[u64]; 10] = [
        &phases, &slots, &inputs, &clients, &any, &any, &phases, &any, &phases, &next,
    ];
    assert!(accepted(&mut lent, 73, &lists) > 500);
}
