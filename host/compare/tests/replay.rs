//! A port whose answers are not the trace's is found out.

use std::collections::BTreeSet;

use compare::{Mode, compared, record};
use port::kinds::refusal;
use stepwise::Stepwise;
use trace::{Call, Exchange, Numbers, Options, Tables, Trace, What, replay, with_refusals};

fn short_trace() -> Trace {
    let traces = (0..40).map(|seed| record(Mode::Hostile, seed).trace);
    let shortest = traces.min_by_key(|trace| trace.exchanges.len());
    shortest.expect("there are traces")
}

/// Where each row begins.
fn rows(words: &[u64]) -> Vec<usize> {
    let mut rows = vec![0];
    while let Some(length) = words.get(*rows.last().unwrap()) {
        rows.push(rows.last().unwrap() + 1 + *length as usize);
    }
    rows
}

#[test]
fn every_word_of_an_answer_counts() {
    let trace = short_trace();
    let words = trace.to_words();
    let rows = rows(&words);
    let mut changed = 0;
    for place in (0..trace.exchanges.len()).step_by(7) {
        for word in rows[place] + 1..rows[place + 1] {
            let mut other = words.clone();
            other[word] ^= 1;
            let Ok(other) = Trace::from_words(&other) else {
                continue;
            };
            if other.exchanges[place].call != trace.exchanges[place].call {
                continue;
            }
            changed += 1;
            let found = replay(&other, &mut Stepwise::default(), Options::default());
            let difference = found.expect_err("a changed answer is a difference");
            assert_eq!(difference.place, place);
            assert!(matches!(difference.what, What::Answer { .. }));
        }
    }
    assert!(changed > 500, "{changed} answers were changed");
}

#[test]
fn a_call_left_out_is_a_difference() {
    let trace = short_trace();
    let shows = |place: &usize| {
        let call = &trace.exchanges[*place].call;
        matches!(
            call,
            Call::Seal { .. } | Call::OutputSend { .. } | Call::End { .. }
        )
    };
    for place in (1..trace.exchanges.len()).filter(shows) {
        let mut other = trace.clone();
        other.exchanges.remove(place);
        let found = replay(&other, &mut Stepwise::default(), Options::default());
        assert!(found.is_err(), "without {:?}", trace.exchanges[place].call);
    }
}

#[test]
fn traces_are_the_same_in_a_file() {
    let trace = record(Mode::Hostile, 5).trace;
    assert_eq!(Trace::from_bytes(&trace.to_bytes()), Ok(trace));
}

#[test]
fn every_question_but_the_fifth_refuses() {
    let traces = (0..40).map(|seed| with_refusals(record(Mode::Hostile, seed).trace, 3));
    let exchanges = traces.flat_map(|trace| trace.exchanges);
    let refused: BTreeSet<(u64, u64)> = exchanges
        .map(|exchange| (exchange.answer.numbers.refusal(), exchange.call.number()))
        .filter(|(refusal, _)| *refusal != 0)
        .collect();
    let refusals: BTreeSet<u64> = refused.iter().map(|(refusal, _)| *refusal).collect();
    assert_eq!(refusals, BTreeSet::from([1, 2, 3, 4, 6, 7, 8, 9, 10]));
    let calls: BTreeSet<u64> = refused.iter().map(|(_, call)| *call).collect();
    let mut all = (1..=23).chain([25, 28, 33]);
    assert!(all.all(|call| calls.contains(&call)), "{calls:?}");
    let full = refused.iter().filter(|(refusal, _)| *refusal == 10);
    let full: Vec<u64> = full.map(|(_, call)| *call).collect();
    assert_eq!(full, [6, 7, 8, 9, 15, 16, 33]);
}

#[test]
fn reads_may_be_left_out() {
    let trace = record(Mode::Raft, 1).trace;
    let made = |reads| {
        let options = Options { reads };
        replay(&trace, &mut Stepwise::default(), options).expect("the trace agrees")
    };
    assert!(made(16) < made(1) / 2);
}

/// The calls of a trace that are refused with this number, by their numbers.
fn refused_with(trace: &Trace, refusal: u64) -> BTreeSet<u64> {
    let exchanges = trace.exchanges.iter();
    let refused = exchanges.filter(|exchange| exchange.answer.numbers.refusal() == refusal);
    refused.map(|exchange| exchange.call.number()).collect()
}

#[test]
fn larger_tables_refuse_what_document_01_says() {
    let schedule = BTreeSet::from([33]);
    for (tables, full, too_short) in [
        (Tables::Smallest, true, true),
        (Tables::Doubled, false, true),
        (Tables::Largest, false, false),
    ] {
        let trace = compared(Mode::Wide, 5, tables, None);
        let no_room = refused_with(&trace, refusal::ROOM);
        assert_eq!(no_room != schedule, full, "{tables:?}: {no_room:?}");
        let areas = refused_with(&trace, refusal::AREA);
        assert_eq!(areas == BTreeSet::from([1]), too_short, "{tables:?}");
        let Call::Start { limits, .. } = &trace.exchanges[0].call else {
            panic!("a run begins with a start");
        };
        let told = trace.exchanges.iter().find_map(capacities);
        assert_eq!(told, Some((limits.events, limits.history)), "{tables:?}");
    }
}

/// Q and H as the settings are read.
fn capacities(exchange: &Exchange) -> Option<(u64, u64)> {
    match exchange.answer.numbers {
        Numbers::Capacities(told) => Some((told.events, told.history)),
        _ => None,
    }
}

#[test]
fn the_same_run_agrees_under_larger_tables() {
    for (mode, seed) in [(Mode::Wide, 3), (Mode::Hostile, 31), (Mode::Raft, 4)] {
        let doubled = compared(mode, seed, Tables::Doubled, None);
        let made = replay(&doubled, &mut Stepwise::default(), Options::default());
        assert_eq!(made, Ok(doubled.exchanges.len()));
    }
    let first = compared(Mode::Wide, 3, Tables::Smallest, Some(50));
    assert_eq!(first.exchanges.len(), 50);
    let whole = compared(Mode::Wide, 3, Tables::Smallest, None);
    assert!(whole.exchanges.len() > 50);
}

/// A seed's settings are drawn from all of their ranges.
#[test]
fn wide_runs_have_every_size() {
    let mut servers = BTreeSet::new();
    let mut clients = BTreeSet::new();
    for seed in 0..200 {
        let trace = compared(Mode::Wide, seed, Tables::Smallest, Some(1));
        if let Call::Start { settings, .. } = &trace.exchanges[0].call {
            servers.insert(settings.servers);
            clients.insert(settings.clients);
        }
    }
    assert_eq!(servers, (1..=8).collect());
    assert!(clients.len() > 50 && clients.contains(&0) && clients.contains(&64));
}
