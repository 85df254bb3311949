//! Counters of 64 bits, and the incarnation's 32, written into the area near their ends.

use port::Settings;
use port::kinds::{fault, input, role};
use trace::Call;

use super::run::{
    LIMITS, MAX, Run, SEAL, SEND, SETTINGS, STEP, end, opened, put_command, put_noop, strike,
};

/// Two servers.
const TWO: Settings = Settings {
    servers: 2,
    ..SETTINGS
};

#[test]
fn direct_sequence_numbers() {
    let mut run = Run::running(SETTINGS, LIMITS);
    let propose = Call::Propose { server: 1 };
    run.counts(35, 1, &propose);
    // A stopped server's proposal uses a number too.
    run.strike(fault::CRASH, 1);
    run.counts(35, 1, &propose);
}

#[test]
fn events_taken() {
    let mut run = Run::running(SETTINGS, LIMITS);
    run.yes(&strike(fault::HEAL_LINKS, 0));
    run.counts(36, 1, &STEP);
    // Where nothing is due, none is taken.
    run.step();
    run.set(36, MAX);
    run.yes(&STEP);
}

#[test]
fn timer_generations() {
    let run = Run::sending(SETTINGS, LIMITS);
    for timer in [0, 1] {
        let word = run.server(1, 15 + timer as usize);
        run.counts(word, 1, &Call::OutputSetTimer { timer, after: 1 });
        run.counts(word, 1, &Call::OutputCancelTimer { timer });
        let mut run = run.clone();
        run.set(word, MAX);
        run.yes(&Call::OutputCancelTimer { timer: 1 - timer });
    }
}

#[test]
fn generations_and_incarnation_of_a_restart() {
    for (kind, first) in [(fault::RESTART, 1), (fault::HEAL_ALL, 0)] {
        let mut run = Run::running(SETTINGS, LIMITS);
        run.strike(fault::CRASH, 1);
        run.yes(&strike(kind, first));
        run.counts(run.server(1, 15), 1, &STEP);
        run.counts(run.server(1, 16), 1, &STEP);
        let word = run.server(1, 14);
        run.set(word, u32::MAX.into());
        run.full(&STEP);
        run.set(word, u64::from(u32::MAX) - 1);
        assert_eq!(run.step().kind, input::START);
        assert_eq!(run.word(word), u32::MAX.into());
    }
}

/// Both servers are stopped, a HealAll has restarted the first, and the second cannot be.
fn healing() -> Run {
    let mut run = Run::running(TWO, LIMITS);
    run.strike(fault::CRASH, 1);
    run.strike(fault::CRASH, 2);
    let started = run.strike(fault::HEAL_ALL, 0);
    assert_eq!((started.kind, started.server), (input::START, 1));
    run.set(run.server(2, 14), u32::MAX.into());
    run
}

#[test]
fn the_incarnation_of_a_restart_that_is_owed() {
    let mut run = healing();
    run.seal();
    run.full(&end(0, 0));
    run.set(run.server(2, 14), u64::from(u32::MAX) - 1);
    assert_eq!(opened(&run.yes(&end(0, 0))).server, 2);
}

#[test]
fn the_incarnation_of_a_restart_that_is_owed_behind_a_cut() {
    let mut run = healing();
    run.set(run.server(1, 17), 1);
    run.full(&SEAL);
    run.set(run.server(2, 14), u64::from(u32::MAX) - 1);
    assert_eq!(opened(&run.yes(&SEAL)).server, 2);
}

#[test]
fn messages_bytes_and_entries_sent() {
    let run = Run::sending(TWO, LIMITS);
    for (word, added) in [(42, 1), (43, 3), (44, 2), (45, 1), (46, 3), (47, 2)] {
        run.counts(word, added, &SEND(2));
    }
    // What the other server sent does not count.
    let mut other = run.clone();
    other.set(48, MAX);
    other.yes(&SEND(2));
    // Nothing is added to what is not counted.
    let mut empty = run;
    for word in [43, 44, 46, 47] {
        empty.set(word, MAX);
    }
    let (to, message, entries) = (2, Vec::new(), 0);
    empty.yes(&Call::OutputSend {
        to,
        message,
        entries,
    });
    let uncounted = Settings {
        count_bytes: 0,
        ..TWO
    };
    let mut run = Run::sending(uncounted, LIMITS);
    run.set(43, MAX);
    run.set(46, MAX);
    run.yes(&SEND(2));
}

#[test]
fn syncs_and_their_bytes() {
    let mut run = Run::started(SETTINGS, LIMITS);
    run.yes(&Call::WriteTruncate { from: 128 });
    run.counts(70, 1, &SEAL);
    // Case C6 of document 01.
    run.counts(71, 7, &SEAL);
    let mut run = Run::started(SETTINGS, LIMITS);
    run.set(70, MAX);
    run.set(71, MAX);
    run.yes(&SEAL);
}

#[test]
fn entries_delivered_to_leaders() {
    for (role, counted) in [(0, false), (role::CANDIDATE, true), (role::LEADER, true)] {
        let mut run = Run::sending(SETTINGS, LIMITS);
        run.yes(&SEND(1));
        run.yes(&end(role, 1));
        if counted {
            run.counts(69, 2, &STEP);
        } else {
            run.set(69, MAX);
            run.yes(&STEP);
        }
    }
}

#[test]
fn discarded_entries() {
    let mut run = Run::started(SETTINGS, LIMITS);
    for index in [1, 2, 4] {
        run.yes(&put_noop(index));
    }
    let discarded = run.server(1, 7);
    run.counts(discarded, 1, &put_command(2, 5));
    run.counts(discarded, 2, &Call::WriteTruncate { from: 2 });
    run.counts(discarded, 3, &Call::WriteTruncate { from: 0 });
    run.set(discarded, MAX);
    // The same payload, a free place, an end that removes nothing.
    run.yes(&put_noop(2));
    run.yes(&put_command(3, 5));
    run.yes(&Call::WriteTruncate { from: 5 });
}

#[test]
fn the_sum_of_discarded_entries() {
    let mut run = Run::running(TWO, LIMITS);
    run.set(run.server(1, 7), 1 << 63);
    run.set(run.server(2, 7), 1 << 63);
    run.full(&Call::ReadMetrics {});
    run.yes(&Call::ReadRun {});
    run.set(run.server(2, 7), (1 << 63) - 1);
    run.yes(&Call::ReadMetrics {});
}
