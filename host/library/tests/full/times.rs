//! Times near the end of the 64 bits: a sum that passes it is refused.
//!
//! The sums of a step (a client's timeout, a retry, a leader's restart) cannot: its event is due by 2^62, and is now.

use port::Settings;
use port::kinds::fault;
use trace::Call;

use super::run::{LIMITS, MAX, REFUSE, Run, SEND, SETTINGS, apply, end, strike};

/// A delay of 1 to 3 ns.
const SLOW: Settings = Settings {
    one_way_delay: 2,
    clients: 1,
    ..SETTINGS
};

/// No delay.
const QUICK: Settings = Settings {
    one_way_delay: 0,
    ..SLOW
};

#[test]
fn timers() {
    let mut run = Run::sending(SETTINGS, LIMITS);
    run.set(32, MAX - 5);
    run.full(&Call::OutputSetTimer { timer: 0, after: 6 });
    run.yes(&Call::OutputSetTimer { timer: 0, after: 5 });
    assert_eq!(run.word(run.event(0, 0)), MAX);
}

/// At the last time the call is refused where it draws a delay, and accepted where there is none; three earlier, it is
/// accepted.
fn delays(mut make: impl FnMut(Settings) -> Run, call: &Call) {
    let mut run = make(SLOW);
    run.set(32, MAX);
    run.full(call);
    run.set(32, MAX - 3);
    run.yes(call);
    let mut run = make(QUICK);
    run.set(32, MAX);
    run.yes(call);
}

/// The client's proposal is open at server 1.
fn proposal(settings: Settings) -> Run {
    let mut run = Run::running(settings, LIMITS);
    run.step();
    run.step();
    run
}

#[test]
fn messages() {
    delays(|settings| Run::sending(settings, LIMITS), &SEND(1));
}

#[test]
fn replies() {
    let applying = |settings| {
        let mut run = proposal(settings);
        run.seal();
        run
    };
    delays(applying, &apply(1, 0, 0));
}

#[test]
fn redirects() {
    let refused = |settings| {
        let mut run = proposal(settings);
        run.yes(&REFUSE);
        run
    };
    delays(refused, &end(0, 0));
}

#[test]
fn redirects_of_an_input_that_is_cut() {
    let cut = |settings| {
        let mut run = proposal(settings);
        run.set(run.server(1, 17), 1);
        run
    };
    delays(cut, &REFUSE);
}

#[test]
fn a_time_that_is_stored_may_be_any() {
    let mut run = Run::running(SETTINGS, LIMITS);
    run.yes(&strike(fault::HEAL_LINKS, 0));
    run.set(32, MAX);
    run.yes(&strike(fault::HEAL_LINKS, 0));
    assert_eq!(run.word(run.event(1, 0)), MAX);
    // An event that is due is now, also where it was before.
    run.step();
    assert_eq!(run.word(32), 0);
}
