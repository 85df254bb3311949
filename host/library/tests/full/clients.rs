//! Pending keys and replies, H of each, and the numbers of clients.

use port::kinds::input;
use port::{Limits, Settings};
use trace::Call;

use super::run::{LIMITS, MAX, REFUSE, Run, SETTINGS, STEP, apply, end};

/// Room for one row of history.
const ONE: Limits = Limits {
    history: 1,
    ..LIMITS
};

/// So many clients, all at server 1.
fn clients(clients: u64) -> Settings {
    Settings {
        clients,
        ..SETTINGS
    }
}

#[test]
fn pending_keys() {
    let mut run = Run::running(clients(2), ONE);
    run.step();
    run.step();
    assert_eq!(run.step().kind, input::PROPOSAL);
    run.finish();
    run.full(&STEP);
}

#[test]
fn a_pending_key_that_is_known_needs_no_row() {
    let mut run = Run::running(clients(1), ONE);
    run.step();
    run.step();
    run.finish();
    // The client waits in vain, and sends its command again.
    run.step();
    assert_eq!(run.step().kind, input::PROPOSAL);
    assert_eq!(run.word(run.server(1, 19)), 1);
}

/// The reply to the client's first command is due.
fn reply_due(limits: Limits) -> Run {
    let mut run = Run::running(clients(1), limits);
    run.step();
    answer_command(&mut run, 0);
    run
}

/// The command of this number arrives, and is applied.
fn answer_command(run: &mut Run, sequence: u64) {
    assert_eq!(run.step().kind, input::PROPOSAL);
    run.seal();
    run.yes(&apply(1, 0, sequence));
    run.yes(&end(0, 0));
}

#[test]
fn replies() {
    let mut run = reply_due(ONE);
    run.step();
    assert_eq!(run.word(86), 1);
    run.step();
    answer_command(&mut run, 1);
    run.full(&STEP);
}

#[test]
fn client_replies() {
    reply_due(LIMITS).counts(72, 1, &STEP);
}

#[test]
fn attempts_of_a_reply() {
    let run = reply_due(LIMITS);
    run.counts(run.client(0, 2), 1, &STEP);
}

#[test]
fn sequence_numbers_and_attempts_of_a_send() {
    let run = Run::running(clients(1), LIMITS);
    run.counts(run.client(0, 1), 1, &STEP);
    run.counts(run.client(0, 2), 1, &STEP);
}

/// The event that is due next makes the attempt that its second number says. The greatest number has no next.
fn attempts(run: Run) {
    for (attempt, room) in [(MAX, false), (MAX - 1, true)] {
        let mut run = run.clone();
        run.set(run.client(0, 2), attempt);
        run.set(run.event(0, 3), attempt);
        run.asks(&STEP, room);
    }
}

/// The client's first proposal is open at server 1.
fn proposed() -> Run {
    let mut run = Run::running(clients(1), LIMITS);
    run.step();
    run.step();
    run
}

#[test]
fn attempts_of_a_timeout() {
    let mut run = proposed();
    run.finish();
    attempts(run);
}

#[test]
fn attempts_of_a_redirect() {
    let mut run = proposed();
    let (refused, hinted, leader) = (1, 1, 1);
    run.yes(&Call::Seal {
        refused,
        hinted,
        leader,
    });
    run.yes(&end(0, 0));
    attempts(run);
}

#[test]
fn attempts_of_a_retry() {
    let mut run = proposed();
    run.yes(&REFUSE);
    run.yes(&end(0, 0));
    run.step();
    attempts(run);
}
