//! The queue, Q events.

use port::kinds::{fault, timer};
use port::{Limits, Settings};
use trace::Call;

use super::run::{LIMITS, REFUSE, Run, SEAL, SEND, SETTINGS, STEP, apply, end, start, strike};

/// Room for so many events.
fn events(events: u64) -> Limits {
    Limits { events, ..LIMITS }
}

/// So many clients.
fn clients(clients: u64) -> Settings {
    Settings {
        clients,
        ..SETTINGS
    }
}

#[test]
fn schedules() {
    let mut run = Run::running(SETTINGS, events(3));
    for _ in 0..3 {
        run.yes(&strike(fault::HEAL_LINKS, 0));
    }
    run.full(&strike(fault::HEAL_LINKS, 0));
    run.step();
    run.yes(&strike(fault::HEAL_LINKS, 0));
}

#[test]
fn timers() {
    let mut run = Run::sending(SETTINGS, events(3));
    let set = |timer| Call::OutputSetTimer { timer, after: 5 };
    for _ in 0..3 {
        run.yes(&set(timer::ELECTION));
    }
    run.full(&set(timer::ELECTION));
    run.full(&set(timer::HEARTBEAT));
    run.yes(&Call::OutputCancelTimer { timer: 0 });
}

#[test]
fn messages() {
    let mut run = Run::sending(SETTINGS, events(3));
    for _ in 0..3 {
        run.yes(&SEND(1));
    }
    run.full(&SEND(1));
}

#[test]
fn copies_need_two_places() {
    let mut run = Run::running(SETTINGS, events(5));
    run.strike(fault::SET_DUPLICATION, 1_000_000);
    run.fire(1);
    run.seal();
    run.yes(&SEND(1));
    run.yes(&SEND(1));
    run.full(&SEND(1));
    run.yes(&Call::OutputSetTimer { timer: 0, after: 0 });
}

#[test]
fn lost_and_blocked_messages_need_none() {
    for (fault, first) in [(fault::SET_LOSS, 1_000_000), (fault::BLOCK, 1)] {
        let mut run = Run::running(SETTINGS, events(1));
        run.strike(fault, first);
        run.yes(&strike(fault::HEAL_LINKS, 0));
        run.fire(1);
        run.seal();
        run.yes(&SEND(1));
    }
}

#[test]
fn an_attempt_takes_one_event_and_pushes_two() {
    let mut run = Run::running(clients(1), events(1));
    run.full(&STEP);
    let mut run = Run::running(clients(1), events(2));
    run.step();
    assert_eq!(run.word(83), 2);
}

#[test]
fn first_sends_behind_the_last_start() {
    for (places, room) in [(2, false), (3, true)] {
        let mut run = Run::started(clients(3), events(places));
        run.seal();
        run.asks(&end(0, 0), room);
    }
}

#[test]
fn first_sends_behind_a_start_that_is_cut() {
    for (places, room) in [(2, false), (3, true)] {
        let mut run = Run::started(clients(3), events(places));
        run.set(run.server(1, 17), 1);
        run.asks(&SEAL, room);
    }
}

#[test]
fn starts_and_first_sends_with_a_spread() {
    let settings = Settings {
        servers: 2,
        start_spread: 9,
        ..clients(2)
    };
    let mut run = Run::before_start(&settings, &events(3));
    // The area holds no state before it.
    let answer = run.answer(&start(settings, events(3)));
    assert_eq!(answer, start(settings, events(3)).refused(10));
    assert_eq!(Run::started(settings, events(4)).word(83), 4);
}

/// A client's proposal is open at server 1, and the queue has so many free places.
fn proposal(free: usize) -> Run {
    let mut run = Run::running(clients(1), LIMITS);
    run.step();
    run.step();
    run.fill_queue(free);
    run
}

#[test]
fn redirects() {
    for (free, room) in [(0, false), (1, true)] {
        let mut run = proposal(free);
        run.yes(&REFUSE);
        run.asks(&end(0, 0), room);
    }
}

#[test]
fn redirects_of_an_input_that_is_cut() {
    for (free, room) in [(0, false), (1, true)] {
        let mut run = proposal(free);
        run.set(run.server(1, 17), 1);
        run.asks(&REFUSE, room);
    }
}

#[test]
fn replies() {
    for (free, room) in [(0, false), (1, true)] {
        let mut run = proposal(free);
        run.seal();
        // Another client's command pushes nothing.
        run.yes(&apply(1, 7, 0));
        run.asks(&apply(1, 0, 0), room);
    }
}
