//! Waiting writes, W, and the tables of H rows: entries seen, leaders, confirmations.

use port::Limits;
use port::kinds::role;
use trace::Call;

use super::run::{LIMITS, Run, SEAL, SETTINGS, end, put_command, put_noop};

/// Room for so many rows of history.
fn history(history: u64) -> Limits {
    Limits { history, ..LIMITS }
}

#[test]
fn waiting_writes() {
    let hard_state = Call::WriteHardState {
        term: 1,
        voted: 1,
        vote: 9,
    };
    let kinds = [hard_state, put_noop(1), Call::WriteTruncate { from: 3 }];
    for kind in &kinds {
        let mut run = Run::started(
            SETTINGS,
            Limits {
                writes: 3,
                ..LIMITS
            },
        );
        for write in [kind, &kinds[0], kind] {
            run.yes(write);
        }
        for write in &kinds {
            run.full(write);
        }
        run.finish();
        run.fire(1);
        run.yes(kind);
    }
}

#[test]
fn entries_seen() {
    let mut run = Run::started(SETTINGS, history(1));
    run.yes(&put_noop(1));
    run.finish();
    // A key that is known needs no row, whatever its payload.
    run.fire(1);
    run.yes(&put_noop(1));
    run.yes(&put_command(1, 5));
    run.finish();
    // Nor does an entry that is gone at the seal.
    run.fire(1);
    run.yes(&put_noop(2));
    run.yes(&Call::WriteTruncate { from: 2 });
    run.finish();
    run.fire(1);
    run.yes(&put_noop(2));
    run.full(&SEAL);
}

#[test]
fn several_entries_of_one_seal() {
    for (rows, room) in [(2, false), (3, true)] {
        let mut run = Run::started(SETTINGS, history(rows));
        for index in [3, 1, 2, 1] {
            run.yes(&put_noop(index));
        }
        run.asks(&SEAL, room);
    }
}

#[test]
fn leaders() {
    let mut run = Run::started(SETTINGS, history(2));
    for term in [3, 1] {
        run.seal();
        run.yes(&end(role::LEADER, term));
        run.fire(1);
    }
    run.seal();
    run.full(&end(role::LEADER, 2));
    run.yes(&end(role::LEADER, 3));
    run.fire(1);
    run.seal();
    run.yes(&end(role::CANDIDATE, 2));
}

#[test]
fn confirmations() {
    let mut run = Run::sending(SETTINGS, history(2));
    let confirmed = Call::OutputConfirmed {
        request: 1,
        read_index: 4,
    };
    let lost = Call::OutputLost { request: 1 };
    run.yes(&confirmed);
    run.yes(&lost);
    run.full(&confirmed);
    run.full(&lost);
    run.yes(&end(0, 0));
}
