//! Areas in mid-run, damaged: questions 4 and 5 are answered as docs/LAYOUT.md says, and nothing that is damaged does harm.

#![cfg(feature = "linked")]

mod host;
mod layout;
mod second;

use std::collections::BTreeMap;

use compare::Mode;
use compare::plan::Plan;
use host::{Hostile, Lent, recorded, visit};
use layout::{Counts, Rule, gate, judge};
use library::Library;
use port::{Limits, Port, Settings, area_length};
use trace::{Call, Trace};

/// Areas that are taken from each run.
const STOPS: usize = 100;

/// Damages that each of them gets.
const DAMAGES: usize = 400;

/// The runs, with areas short enough to be read many times.
const RUNS: [(Mode, u64); 24] = [
    (Mode::Raft, 1),
    (Mode::Raft, 5),
    (Mode::Raft, 9),
    (Mode::VoteNotSaved, 5),
    (Mode::VoteNotSaved, 6),
    (Mode::TermNotSaved, 1),
    (Mode::TermNotSaved, 5),
    (Mode::AppliesEarly, 5),
    (Mode::AppliesEarly, 6),
    (Mode::TruncatesTooFar, 5),
    (Mode::TruncatesTooFar, 7),
    (Mode::Hostile, 1),
    (Mode::Hostile, 7),
    (Mode::Hostile, 16),
    (Mode::Hostile, 21),
    (Mode::Hostile, 23),
    (Mode::Hostile, 25),
    (Mode::Hostile, 26),
    (Mode::Hostile, 31),
    (Mode::Hostile, 32),
    (Mode::Hostile, 34),
    (Mode::Hostile, 36),
    (Mode::Hostile, 37),
    (Mode::Hostile, 50),
];

/// The start of a small run.
const SETTINGS: Settings = Settings {
    servers: 2,
    heartbeat_interval: 1,
    election_timeout_min: 2,
    election_timeout_max: 2,
    max_entries_per_message: 1,
    max_entries_in_flight: 1,
    one_way_delay: 1,
    clients: 1,
    command_bytes: 12,
    client_timeout: 1,
    client_backoff: 1,
    count_bytes: 1,
    raft_checks: 1,
    start_spread: 0,
};
const LIMITS: Limits = Limits {
    log: 2,
    payload: 12,
    message: 8,
    events: 8,
    writes: 2,
    history: 2,
};

/// What was met.
#[derive(Default)]
struct Met {
    /// How often an area was accepted, or which range it did not keep.
    verdicts: BTreeMap<Option<Rule>, usize>,
    /// Calls on areas that were refused, and on such as were accepted.
    refused: usize,
    accepted: usize,
    /// How often such a call was accepted, and changed the area.
    acted: usize,
}

#[test]
fn damaged_areas_are_judged_by_the_layout() {
    let mut met = Met::default();
    for (number, (mode, seed)) in RUNS.into_iter().enumerate() {
        let mut plan = Plan::new(number as u64);
        let trace = recorded(mode, seed);
        let every = acts(&trace).div_ceil(STOPS).max(1);
        visit(&trace, every, |area| {
            assert_eq!(judge(area), Ok(()), "{} {seed}", mode.name());
            for _ in 0..DAMAGES {
                damage(area, &mut plan, &mut met);
            }
        });
    }
    met.is_enough();
}

/// How many calls of a run do not only read.
fn acts(trace: &Trace) -> usize {
    trace.exchanges.iter().filter(|e| !e.call.reads()).count()
}

impl Met {
    /// Every range was met, and every answer often.
    fn is_enough(&self) {
        let of = |refusal| {
            let verdicts = self.verdicts.iter();
            let those = verdicts.filter(|(rule, _)| rule.map_or(0, Rule::refusal) == refusal);
            those.map(|(_, count)| count).sum::<usize>()
        };
        let (fit, short, none) = (of(0), of(4), of(5));
        println!("{fit} areas accepted, {short} too short, {none} hold no state");
        println!(
            "{} calls refused, {} accepted areas called, {} calls acted",
            self.refused, self.accepted, self.acted
        );
        assert!(fit > 100_000 && short > 30_000 && none > 300_000);
        assert!(self.refused > 100_000 && self.acted > 100_000);
        let missing = Rule::ALL
            .iter()
            .filter(|rule| !self.verdicts.contains_key(&Some(**rule)));
        assert_eq!(
            missing.collect::<Vec<_>>(),
            [&Rule::Servers; 0],
            "never met"
        );
    }
}

/// Damages a copy of the area, and holds the library to the judge.
fn damage(area: &[u8], plan: &mut Plan, met: &mut Met) {
    let mut area = area.to_vec();
    let told = damages(&mut area, plan);
    let verdict = judge(&area);
    let refusal = gate(&area);
    let mut lent = Lent::new(&area);
    let answer = Library.read_run(lent.area());
    assert_eq!(
        answer.refusal, refusal,
        "{told}: the judge says {verdict:?}"
    );
    assert!(lent.area() == area, "{told}: a read has changed the area");
    *met.verdicts.entry(verdict.err()).or_default() += 1;
    if refusal != 0 && plan.one_in(40) {
        every_call_is_refused(&mut lent, refusal, plan);
        met.refused += 32;
        a_start_reads_no_old_byte(lent);
    } else if refusal == 0 && plan.one_in(4) {
        met.accepted += 1;
        met.acted += calls_leave_a_state(&mut lent, plan);
    }
}

/// Every call but a start answers the refusal; the lent memory is watched.
fn every_call_is_refused(lent: &mut Lent, refusal: u64, plan: &mut Plan) {
    let mut hostile = caller(&[0; 64], plan);
    for number in (2..=32).chain([34]) {
        let call = hostile.numbered(number);
        let buffer = hostile.buffer(&call);
        let answer = lent.make(&call, buffer);
        assert_eq!(answer.numbers.refusal(), refusal, "{call:?}");
    }
}

/// A start on the damaged area is as one on an empty area of its length.
fn a_start_reads_no_old_byte(mut lent: Lent) {
    let mut empty = Lent::new(&vec![0; lent.area().len()]);
    let start = Call::Start {
        settings: Box::new(SETTINGS),
        limits: Box::new(LIMITS),
        seed: 7,
    };
    let answer = lent.make(&start, 0);
    assert_eq!(answer, empty.make(&start, 0));
    let length = area_length(&SETTINGS, &LIMITS) as usize;
    assert_eq!(answer.numbers.refusal() == 4, lent.area().len() < length);
    if answer.numbers.refusal() == 0 {
        assert!(lent.area()[..length] == empty.area()[..length]);
    }
}

/// Calls on a damaged area that holds a state leave one that does. Answers how many were accepted.
fn calls_leave_a_state(lent: &mut Lent, plan: &mut Plan) -> usize {
    let mut hostile = caller(lent.area(), plan);
    let mut acted = 0;
    for _ in 0..8 {
        let run = Library.read_run(lent.area());
        hostile.now = run.now.min(1 << 62);
        let call = hostile.call(run.phase);
        let buffer = hostile.buffer(&call);
        let answer = lent.make(&call, buffer);
        if answer.numbers.refusal() == 0 && !call.reads() {
            assert_eq!(judge(lent.area()), Ok(()), "{call:?}");
            acted += 1;
        }
    }
    acted
}

/// Who calls on an area of these counts.
fn caller(area: &[u8], plan: &mut Plan) -> Hostile {
    let counts = Counts::of(&area[..64]);
    let at_least = |count: usize, least: u64| (count as u64).max(least);
    Hostile {
        plan: Plan::new(plan.any()),
        settings: Settings {
            servers: at_least(counts.servers, 1),
            clients: counts.clients as u64,
            ..Settings::default()
        },
        limits: Limits {
            log: at_least(counts.log, 1),
            payload: at_least(counts.payload, 12),
            message: counts.message as u64,
            ..Limits::default()
        },
        now: 0,
        key: (0, plan.below(3)),
        wild: 12,
    }
}

/// Damages the area in one way. Answers what was done.
fn damages(area: &mut Vec<u8>, plan: &mut Plan) -> String {
    let counts = Counts::of(&area[..64]);
    let word = word(area, &counts, plan);
    match plan.below(16) {
        0..4 => {
            let bit = plan.below(64) as usize;
            area[8 * word + bit / 8] ^= 1 << (bit % 8);
            format!("word {word}, bit {bit}")
        }
        4..12 => {
            let value = value(read(area, word), &counts, plan);
            write(area, word, value);
            format!("word {word} is {value}")
        }
        12 => {
            let other = self::word(area, &counts, plan);
            let (one, two) = (read(area, word), read(area, other));
            write(area, word, two);
            write(area, other, one);
            format!("words {word} and {other} change places")
        }
        13 => {
            let length = length(area.len(), &counts, plan);
            area.resize(length, 0xFF);
            format!("{length} bytes")
        }
        14 => {
            let number = plan.below(8) as usize;
            let value = value(read(area, number), &counts, plan);
            write(area, number, value);
            format!("count {number} is {value}")
        }
        _ => {
            let value = plan.any() as u8;
            let byte = plan.below(counts.bytes() as u64) as usize;
            area[byte] = value;
            format!("byte {byte} is {value}")
        }
    }
}

fn read(area: &[u8], word: usize) -> u64 {
    let (words, _) = area.as_chunks();
    u64::from_le_bytes(words[word])
}

fn write(area: &mut [u8], word: usize, value: u64) {
    area[8 * word..8 * word + 8].copy_from_slice(&value.to_le_bytes());
}

/// A length near one at which the answer changes, or any.
fn length(longest: usize, counts: &Counts, plan: &mut Plan) -> usize {
    let any = plan.below(longest as u64 + 200) as usize;
    let formula = counts.bytes();
    plan.pick(&[any, 0, 63, 4_095, 4_096, formula - 1, formula, formula + 1])
}

/// A number near the end of some range, or next to the old one, or any.
fn value(old: u64, counts: &Counts, plan: &mut Plan) -> u64 {
    let small = plan.below(14);
    let limits = [
        counts.servers,
        counts.clients,
        counts.log,
        counts.payload,
        counts.message,
        counts.events,
        counts.writes,
        counts.history,
    ];
    let limit = plan.pick(&limits) as u64 + plan.below(6);
    let edge = 1 << plan.pick(&[5, 16, 32, 40, 63]);
    let choices = [
        0,
        1,
        small,
        small,
        limit,
        edge,
        edge - 1,
        edge + 1,
        old.wrapping_add(1),
        old.wrapping_sub(1),
        u64::MAX,
        plan.any(),
    ];
    plan.pick(&choices)
}

/// A word of the area, most often one that is used or next to one that is.
fn word(area: &[u8], counts: &Counts, plan: &mut Plan) -> usize {
    let mut below = |bound: usize| plan.below(bound as u64) as usize;
    let slot = below(counts.servers);
    let block = counts.server(slot);
    match below(16) {
        0..4 => below(92),
        4 => 256 + below(8 * (1 + read(area, 89) as usize).min(32)),
        5..7 => block + below(24),
        7 => below(counts.bytes() / 8),
        _ => {
            let table = below(11);
            let (begin, words, rows) = table_at(table, area, counts, block);
            begin + below(words * rows.max(1))
        }
    }
}

/// A table of a server or of the area: where it begins, words of a row, and rows to look at, one that is not used among
/// them where there is one.
fn table_at(table: usize, area: &[u8], counts: &Counts, block: usize) -> (usize, usize, usize) {
    let rows = |word: usize, places: usize| (1 + read(area, word) as usize).min(places);
    let c = counts;
    match table {
        0 => (block + 64, c.place(), 2 * c.log),
        1 => (block + c.waiting(), c.entry(), rows(block + 6, c.writes)),
        2 => (block + c.pending(), 2, rows(block + 19, c.history)),
        3 | 4 => (c.queue(), c.event(), rows(83, c.events)),
        5 => (c.seen(), c.entry(), rows(84, c.history)),
        6 => (c.leaders(), 2, rows(85, c.history)),
        7 => (c.replies(), 5, rows(86, c.history)),
        8 => (c.confirmations(), 3, rows(87, c.history)),
        9 => (c.applied(), 1 + c.payload_words(), rows(88, c.log)),
        _ => (c.first_client(), 8, c.clients),
    }
}
