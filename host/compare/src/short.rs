//! Short runs of the reference, each chosen for what it shows of a definition (crates/runs).

use std::time::Duration;

use consensus::{NodeId, Payload, Role, Timer};
use port::kinds::{fault, refusal};
use port::{Limits, Settings};
use sim::Fault;
use trace::{Call, Trace, runs_to_antt};

use crate::scripted::{Play, act, command};

/// A run's name in the module, and what makes it.
pub type Short = (&'static str, fn() -> Trace);

/// The short runs as a module of antt.
pub fn short_runs() -> String {
    let about = "Short runs of the Rust, one for each few things that a definition could have wrong; what each is there \
                 for is said at its theorem. Between the calls stand some that document 01 refuses. Made by `write_run` \
                 (host/README.md). Assumes nothing.";
    runs_to_antt(about, SHORT.map(|(name, make)| (name, make())))
}

/// Every short run. What each is there for is said at its theorem.
pub const SHORT: [Short; 19] = [
    ("leads_again", leads_again),
    ("healed", healed),
    ("late_start", late_start),
    ("spread", spread),
    ("crashed_leader", crashed_leader),
    ("redirects", redirects),
    ("two_replies", two_replies),
    ("retry_at_reply", retry_at_reply),
    ("cut_refusal", cut_refusal),
    ("stopped_server", stopped_server),
    ("full_keys", full_keys),
    ("full_replies", full_replies),
    ("full_leaders", full_leaders),
    ("full_entries", full_entries),
    ("refusals", refusals),
    ("timers", timers),
    ("network", network),
    ("matching", matching),
    ("many_violations", many_violations),
];

/// Settings with a command of 12 bytes and all checks.
fn settings(servers: u64, clients: u64) -> Settings {
    Settings {
        servers,
        heartbeat_interval: 1,
        election_timeout_min: 2,
        election_timeout_max: 2,
        max_entries_per_message: 1,
        max_entries_in_flight: 1,
        one_way_delay: 10,
        clients,
        command_bytes: 12,
        client_timeout: 60,
        client_backoff: 55,
        count_bytes: 1,
        raft_checks: 1,
        start_spread: 0,
    }
}

const NOOP: Payload = Payload::Noop;

// ----- Which reads are kept ----------------------------------------------------------

fn the_run(call: &Call) -> bool {
    matches!(call, Call::ReadRun {})
}

fn metrics(call: &Call) -> bool {
    matches!(call, Call::ReadMetrics {})
}

fn leader(call: &Call) -> bool {
    matches!(call, Call::ReadLeader {})
}

fn violations(call: &Call) -> bool {
    matches!(call, Call::ReadViolation { .. })
}

fn applied(call: &Call) -> bool {
    matches!(
        call,
        Call::ReadApplied { .. } | Call::ReadAppliedEntry { .. }
    )
}

fn replies(call: &Call) -> bool {
    matches!(call, Call::ReadReply { .. })
}

fn disks(call: &Call) -> bool {
    matches!(
        call,
        Call::ReadHardState { .. } | Call::ReadLog { .. } | Call::ReadEntry { .. }
    )
}

fn sent_by(call: &Call) -> bool {
    matches!(call, Call::ReadSentBy { .. })
}

fn seals(call: &Call) -> bool {
    matches!(call, Call::Seal { .. })
}

fn ends(call: &Call) -> bool {
    matches!(call, Call::End { .. })
}

fn fires(call: &Call) -> bool {
    matches!(call, Call::FireTimer { .. })
}

fn steps(call: &Call) -> bool {
    matches!(call, Call::Step { .. })
}

fn statuses(call: &Call) -> bool {
    matches!(call, Call::ReadStatus { .. })
}

/// A seal that names server 0, or nobody.
fn seal(refused: u64, hinted: u64) -> Call {
    Call::Seal {
        refused,
        hinted,
        leader: 0,
    }
}

// ----- The runs ----------------------------------------------------------------------

fn leads_again() -> Trace {
    let first = act()
        .hard_state(128, Some(2))
        .put(2, 1, NOOP)
        .applies(1, NOOP)
        .sets(Timer::Election, 5)
        .leads(1);
    let mut play = Play::start(&settings(1, 0), 1, [first]);
    play.look(violations);
    play.look(metrics);
    play.look(disks);
    let written = act()
        .put(2, 1, NOOP)
        .put(2, 1, command(0, 0))
        .put(1, 1, NOOP);
    play.fire(1, [written.truncate(1).leads(1)]);
    play.look(the_run);
    play.look(metrics);
    play.fire(1, [act()]);
    play.fire(1, [act().leads(1)]);
    play.look(the_run);
    play.fault(Fault::CrashDuringNextInput(NodeId(1)), []);
    play.fire(1, [act().put(1, 2, NOOP).hard_state(2, None)]);
    play.look(|call| matches!(call, Call::ReadHardState { .. } | Call::ReadLog { .. }));
    play.look(metrics);
    play.fault(Fault::Restart(NodeId(1)), [act().leads(1)]);
    play.look(violations);
    play.look(applied);
    // The timer of its first start.
    play.step([]);
    play.look(the_run);
    play.trace()
}

fn healed() -> Trace {
    let mut settings = settings(2, 0);
    settings.count_bytes = 0;
    let mut play = Play::start(&settings, 1, [act(), act()]);
    let (from, to) = (NodeId(2), NodeId(1));
    play.fault(Fault::Block { from, to }, []);
    play.fault(Fault::SetLoss(1_000_000), []);
    play.fault(Fault::SetDuplication(1_000_000), []);
    play.fault(Fault::SetDelayFactor(9), []);
    play.fault(Fault::Crash(NodeId(1)), []);
    play.fault(Fault::CrashDuringNextInput(NodeId(2)), []);
    play.fault(Fault::HealAll, [act()]);
    play.look(statuses);
    play.fire(2, [act().sends(1, &[3, 1])]);
    play.look(the_run);
    play.look(metrics);
    play.step([act()]);
    play.look(the_run);
    play.trace()
}

fn late_start() -> Trace {
    let mut settings = settings(2, 0);
    settings.start_spread = 1_000;
    let mut play = Play::start(&settings, 1, []);
    play.fault(Fault::Restart(NodeId(1)), [act()]);
    play.fault(Fault::Restart(NodeId(2)), [act()]);
    play.fault(Fault::Crash(NodeId(2)), []);
    for _ in 0..2 {
        play.step([]);
        play.look(the_run);
    }
    play.trace()
}

fn spread() -> Trace {
    let mut settings = settings(2, 1);
    settings.start_spread = 1;
    let mut play = Play::start(&settings, 1, []);
    play.step([act()]);
    play.step([act()]);
    play.step([]);
    play.look(the_run);
    play.trace()
}

fn crashed_leader() -> Trace {
    let mut play = Play::start(&settings(2, 0), 1, [act().leads(3), act().leads(3)]);
    play.look(leader);
    play.look(violations);
    let downtime = Duration::from_nanos(50);
    play.fault(Fault::CrashLeader { downtime }, []);
    play.look(leader);
    play.step_until(49, []);
    play.look(the_run);
    play.step_until(50, [act().role(Role::Candidate, 4)]);
    play.step_until(20, []);
    play.look(the_run);
    play.schedule(90, Fault::HealLinks);
    play.step_until(20, []);
    play.look(the_run);
    play.schedule(10, Fault::HealLinks);
    play.step_until(60, []);
    play.look(the_run);
    play.trace()
}

fn redirects() -> Trace {
    let mut play = Play::start(&settings(2, 1), 3, [act(), act()]);
    play.step([]);
    play.step([act().refuses(Some(3))]);
    // Its key is gone: this makes no reply due.
    play.fire(2, [act().applies(1, command(0, 0))]);
    play.step([]);
    play.look(the_run);
    // A second attempt, and a redirect of it that is late.
    play.step([]);
    play.fault(Fault::SetDelayFactor(10), []);
    play.step([act().refuses(Some(1))]);
    play.fault(Fault::SetDelayFactor(0), []);
    play.step([]);
    play.look(the_run);
    // A third attempt.
    play.step([]);
    play.step([act().refuses(Some(2))]);
    play.steps(2);
    play.look(the_run);
    play.step([act()]);
    // An old timeout, and the one that is not.
    play.steps(2);
    play.step([act()]);
    play.look(the_run);
    play.trace()
}

fn two_replies() -> Trace {
    let mut play = Play::start(&settings(1, 1), 20, [act()]);
    play.step([]);
    play.fault(Fault::SetDelayFactor(10), []);
    play.step([act().applies(1, command(0, 0))]);
    // A second attempt, the reply to the first, and the next command.
    play.steps(2);
    play.look(replies);
    play.step([]);
    play.fault(Fault::SetDelayFactor(1), []);
    play.step([act().applies(1, command(0, 0))]);
    play.look(the_run);
    play.steps(2);
    play.check_durability();
    play.look(the_run);
    play.trace()
}

fn timers() -> Trace {
    let (election, heartbeat) = (Timer::Election, Timer::Heartbeat);
    let first = act()
        .sets(heartbeat, 5)
        .sets(election, 5)
        .sets(heartbeat, 5);
    let mut play = Play::start(&settings(1, 0), 1, [first]);
    play.step([]);
    play.step([act().sets(election, 0).cancels(election)]);
    play.step([act()]);
    play.step([]);
    play.trace()
}

fn retry_at_reply() -> Trace {
    let mut settings = settings(2, 1);
    (
        settings.one_way_delay,
        settings.client_timeout,
        settings.client_backoff,
    ) = (0, 10, 0);
    let mut play = Play::start(&settings, 13, [act(), act()]);
    play.schedule(0, Fault::SetLoss(500_000));
    play.steps(2);
    play.step([act()]);
    play.step([]);
    play.step([act().refuses(None)]);
    play.fire(1, [act().applies(1, command(0, 0))]);
    // The redirect, the reply, and the retry that the redirect asked for.
    play.steps(3);
    play.look(the_run);
    play.fire(1, [act().sends(2, &[]).sends(2, &[])]);
    play.look(the_run);
    play.trace()
}

fn cut_refusal() -> Trace {
    let mut play = Play::start(&settings(1, 1), 1, [act()]);
    play.step([]);
    play.fault(Fault::CrashDuringNextInput(NodeId(1)), []);
    play.step([act().put(2, 1, NOOP).refuses(None)]);
    play.look(the_run);
    play.look(metrics);
    play.trace()
}

fn stopped_server() -> Trace {
    let mut play = Play::start(&settings(1, 0), 1, [act()]);
    play.fault(Fault::Crash(NodeId(1)), []);
    play.propose(1, []);
    play.confirm(1, []);
    play.fire(1, []);
    play.fault(Fault::Restart(NodeId(1)), [act()]);
    play.propose(1, [act().refuses(None)]);
    play.confirm(1, [act().confirms(7, 9).loses(8)]);
    play.look(|call| matches!(call, Call::ReadConfirmation { .. }));
    play.trace()
}

fn full_keys() -> Trace {
    let mut play = Play::start(&settings(1, 2), 1, [act()]);
    play.steps(2);
    play.step([act()]);
    play.step([act()]);
    play.full(|limits| &mut limits.history, steps)
}

fn full_replies() -> Trace {
    let mut play = Play::start(&settings(1, 1), 1, [act()]);
    play.step([]);
    play.step([act().applies(1, command(0, 0)).applies(1, command(0, 0))]);
    play.look(the_run);
    play.steps(2);
    play.look(replies);
    play.step([act().applies(1, command(0, 1))]);
    play.step([]);
    play.full(|limits| &mut limits.history, steps)
}

fn full_leaders() -> Trace {
    let mut play = Play::start(&settings(1, 0), 1, [act().leads(1)]);
    play.fire(1, [act().leads(1)]);
    play.fire(1, [act().leads(2)]);
    play.full(|limits| &mut limits.history, ends)
}

fn full_entries() -> Trace {
    let first = act()
        .put(1, 1, NOOP)
        .sets(Timer::Election, 5)
        .confirms(7, 9);
    let mut play = Play::start(&settings(1, 0), 1, [first]);
    let put = Call::WritePut {
        index: 1,
        term: 1,
        kind: 0,
        payload: Vec::new(),
    };
    play.refused(seals, put, refusal::ROOM);
    play.refused(
        ends,
        Call::OutputSetTimer { timer: 0, after: 0 },
        refusal::ROOM,
    );
    play.refused(ends, Call::OutputLost { request: 0 }, refusal::ROOM);
    play.fire(1, [act().put(1, 1, NOOP)]);
    play.fire(1, [act().put(1, 2, NOOP)]);
    play.full(|limits| &mut limits.history, seals)
}

fn refusals() -> Trace {
    let mut play = Play::start(&settings(1, 0), 1, [act().put(1, 0, NOOP).sends(1, &[0])]);
    refused_starts(&mut play);
    play.fire(1, [act().put(1, 0, NOOP).sends(1, &[0])]);
    refused_between(&mut play);
    refused_faults(&mut play);
    refused_writes(&mut play);
    refused_outputs(&mut play);
    play.propose(1, [act().refuses(Some(9))]);
    play.refused(seals, seal(1, 2), refusal::RANGE);
    play.refused(ends, Call::OutputLost { request: 0 }, refusal::PHASE);
    play.trace()
}

/// A change of what a run is started with.
type Change = fn(&mut Settings, &mut Limits);

/// Starts that are refused, each for one number past the end of its range, or for two.
fn refused_starts(play: &mut Play) {
    let changes: [(Change, u64); 8] = [
        (|s, _| (s.servers, s.clients) = (9, 65), refusal::SERVERS),
        (
            |s, _| (s.heartbeat_interval, s.clients) = (2, 65),
            refusal::CONFIG,
        ),
        (|s, _| s.election_timeout_max = 1, refusal::CONFIG),
        (|s, _| s.max_entries_in_flight = 0, refusal::CONFIG),
        (|s, _| s.clients = 65, refusal::SETTINGS),
        (|s, _| s.client_timeout = (1 << 40) + 1, refusal::SETTINGS),
        (|s, _| s.command_bytes = 13, refusal::SETTINGS),
        (
            |s, l| (s.command_bytes, l.payload) = (0, 11),
            refusal::SETTINGS,
        ),
    ];
    for (change, number) in changes {
        let mut settings = Box::new(settings(1, 0));
        let mut limits = Box::new(Limits {
            log: 1,
            payload: 12,
            message: 1,
            events: 1,
            writes: 1,
            history: 1,
        });
        change(&mut settings, &mut limits);
        play.refused(
            seals,
            Call::Start {
                settings,
                limits,
                seed: 0,
            },
            number,
        );
    }
}

/// Direct calls, reads, and calls of an input between inputs.
fn refused_between(play: &mut Play) {
    let late = (1 << 62) + 1;
    let fire = |server, timer| Call::FireTimer { server, timer };
    let confirm = |server| Call::ConfirmLeadership { server, request: 0 };
    let entry = |server| Call::ReadEntry { server, index: 1 };
    for (call, number) in [
        (Call::Step { deadline: late }, refusal::RANGE),
        (Call::Propose { server: 2 }, refusal::SERVER),
        (fire(2, 2), refusal::SERVER),
        (fire(1, 2), refusal::RANGE),
        (confirm(0), refusal::SERVER),
        (Call::ReadStatus { server: 0 }, refusal::SERVER),
        (entry(2), refusal::SERVER),
        (seal(0, 0), refusal::PHASE),
        (Call::OutputLost { request: 0 }, refusal::PHASE),
    ] {
        play.refused(fires, call, number);
    }
}

/// Faults between inputs.
fn refused_faults(play: &mut Play) {
    let late = (1 << 62) + 1;
    let schedule = |at, fault, first, second, groups: &[u8]| {
        let groups = groups.to_vec();
        Call::Schedule {
            at,
            fault,
            first,
            second,
            groups,
        }
    };
    for (call, number) in [
        (schedule(late, fault::RESTART, 2, 0, &[]), refusal::SERVER),
        (schedule(0, fault::BLOCK, 1, 2, &[]), refusal::SERVER),
        (
            schedule(0, fault::PARTITION, 0, 0, &[0, 0, 0, 0, 0, 0, 0, 0, 2]),
            refusal::SERVER,
        ),
        (schedule(0, fault::PARTITION, 0, 0, &[0; 9]), refusal::RANGE),
        (
            schedule(0, fault::SET_DELAY_FACTOR, 65_537, 0, &[]),
            refusal::RANGE,
        ),
        (
            schedule(0, fault::CRASH_LEADER, (1 << 40) + 1, 0, &[]),
            refusal::RANGE,
        ),
    ] {
        play.refused(fires, call, number);
    }
}

/// Calls while a timer's input is writing.
fn refused_writes(play: &mut Play) {
    let put = |index, kind, length| {
        let payload = vec![0; length];
        Call::WritePut {
            index,
            term: 0,
            kind,
            payload,
        }
    };
    let vote = |voted| Call::WriteHardState {
        term: 0,
        voted,
        vote: 0,
    };
    for (call, number) in [
        (put(0, 2, 0), refusal::INDEX),
        (put(2, 0, 0), refusal::INDEX),
        (put(1, 0, 1), refusal::RANGE),
        (put(1, 1, 13), refusal::RANGE),
        (vote(2), refusal::RANGE),
        (seal(1, 0), refusal::RANGE),
        (Call::CheckDurability {}, refusal::PHASE),
        (Call::Step { deadline: 0 }, refusal::PHASE),
        (Call::OutputCancelTimer { timer: 0 }, refusal::PHASE),
    ] {
        play.refused(seals, call, number);
    }
}

/// Calls while an input is sending.
fn refused_outputs(play: &mut Play) {
    let send = |to, length, entries| {
        let message = vec![0; length];
        Call::OutputSend {
            to,
            message,
            entries,
        }
    };
    let apply = |index, kind| {
        let payload = Vec::new();
        Call::OutputApply {
            index,
            kind,
            payload,
        }
    };
    let set = |timer, after| Call::OutputSetTimer { timer, after };
    let end = |role, hinted| Call::End {
        role,
        term: 0,
        hinted,
        leader: 0,
        commit: 0,
    };
    for (call, number) in [
        (send(0, 2, 0), refusal::SERVER),
        (send(1, 2, 0), refusal::RANGE),
        (send(1, 0, 1 << 32), refusal::RANGE),
        (set(0, (1 << 40) + 1), refusal::RANGE),
        (apply(2, 2), refusal::INDEX),
        (apply(0, 2), refusal::RANGE),
        (end(3, 0), refusal::RANGE),
        (end(0, 2), refusal::RANGE),
        (Call::WriteTruncate { from: 0 }, refusal::PHASE),
    ] {
        play.refused(ends, call, number);
    }
}

fn network() -> Trace {
    let mut settings = settings(2, 0);
    settings.one_way_delay = 11;
    let mut play = Play::start(&settings, 2, [act(), act().role(Role::Candidate, 0)]);
    play.fault(
        Fault::Partition(vec![vec![NodeId(1)], vec![NodeId(1), NodeId(2)]]),
        [],
    );
    play.fire(1, [act().sends(1, &[9]).sends(2, &[9])]);
    play.look(the_run);
    play.fault(
        Fault::Unblock {
            from: NodeId(1),
            to: NodeId(2),
        },
        [],
    );
    play.fault(Fault::SetLoss(300_000), []);
    play.fault(Fault::SetDuplication(500_000), []);
    play.fire(
        1,
        [act().sends(2, &[7, 1]).sends(2, &[5]).sends(2, &[6, 6, 6])],
    );
    play.look(the_run);
    play.look(metrics);
    play.look(sent_by);
    play.step([act().role(Role::Candidate, 0)]);
    play.look(the_run);
    play.look(metrics);
    play.trace()
}

fn matching() -> Trace {
    let log = |payload| act().put(1, 1, payload).put(2, 2, NOOP);
    let acts = [log(NOOP), act().put(2, 2, NOOP), log(command(0, 0))];
    let mut play = Play::start(&settings(3, 0), 1, acts);
    play.look(violations);
    play.check_log_matching();
    play.look(violations);
    play.trace()
}

fn many_violations() -> Trace {
    let mut play = Play::start(&settings(1, 1), 1, [act()]);
    play.step([]);
    play.step([act().applies(3, command(0, 0))]);
    play.fault(Fault::Crash(NodeId(1)), []);
    play.fault(Fault::Restart(NodeId(1)), [act()]);
    play.step([]);
    for _ in 0..16 {
        play.check_durability();
    }
    play.look(the_run);
    play.look(violations);
    play.trace()
}
