//! A run of the hostile node: any call, any fault, at any time.

use std::time::Duration;

use consensus::{NodeId, Rng, Timer};
use nodes::Hostile;
use observe::{Recording, Run};
use port::{Chaos, Settings};
use sim::Fault;

use crate::plan::{MS, Plan};

/// The latest deadline of document 01.
const LATEST: u64 = 1 << 62;

/// The longest duration of document 01.
const LONGEST: u64 = 1 << 40;

/// How far a deadline mostly reaches: past any timer, and not past all time.
const REACH: u64 = 1 << 42;

/// Steps after the last fault.
const LAST_STEPS: u64 = 40;

pub(crate) fn record(seed: u64) -> Recording {
    let mut plan = Plan::new(seed);
    let settings = settings(&mut plan);
    run(&settings, plan, seed)
}

/// The same with settings from all of their ranges.
pub(crate) fn record_wide(seed: u64) -> Recording {
    let mut plan = Plan::new(seed);
    let settings = wide_settings(&mut plan);
    run(&settings, plan, seed)
}

fn run(settings: &Settings, mut plan: Plan, seed: u64) -> Recording {
    let mut run = Run::<Hostile>::start(settings, seed);
    // Early, while the violations are still kept in full.
    let checked = plan.below(40);
    for made in 0..plan.pick(&[40, 150, 400]) {
        call(&mut run, &mut plan);
        if made == checked {
            run.check_log_matching();
            run.check_durability();
        }
    }
    let now = run.now().min(LATEST);
    run.schedule(now, Fault::HealAll);
    // Where delays are zero, time may stand still for ever.
    for _ in 0..LAST_STEPS {
        run.step(now);
    }
    run.check_log_matching();
    run.check_durability();
    run.finish()
}

fn settings(plan: &mut Plan) -> Settings {
    let message = plan.pick(&[1, 2, 24, 300, 4_097]);
    let log = plan.pick(&[1, 3, 12, 12, 1_024]);
    Settings {
        servers: plan.pick(&[1, 2, 3, 3, 5, 8]),
        heartbeat_interval: plan.pick(&[1, MS, LONGEST - 2]),
        election_timeout_min: LONGEST - 1,
        election_timeout_max: LONGEST,
        max_entries_per_message: message,
        max_entries_in_flight: message + log - 1,
        one_way_delay: plan.pick(&[0, 1, MS, 7_500_000, LONGEST]),
        clients: plan.pick(&[0, 1, 2, 5, 64]),
        command_bytes: plan.pick(&[0, 12, 13, 40, 256]),
        client_timeout: plan.pick(&[0, 1, 20 * MS, 20 * MS, LONGEST]),
        client_backoff: plan.pick(&[0, 5 * MS, LONGEST]),
        count_bytes: plan.below(2),
        raft_checks: plan.below(2),
        start_spread: plan.pick(&[0, 0, 50 * MS, LONGEST]),
    }
}

/// Every number of servers and clients, every length, and durations of every size.
fn wide_settings(plan: &mut Plan) -> Settings {
    let message = 1 + wide(plan, 4_096);
    let log = 1 + wide(plan, 1_023);
    let heartbeat_interval = 1 + wide(plan, LONGEST - 2);
    let election_timeout_min =
        heartbeat_interval + 1 + wide(plan, LONGEST - 1 - heartbeat_interval);
    Settings {
        servers: 1 + plan.below(8),
        heartbeat_interval,
        election_timeout_min,
        election_timeout_max: election_timeout_min + wide(plan, LONGEST - election_timeout_min),
        max_entries_per_message: message,
        max_entries_in_flight: message + log - 1,
        one_way_delay: wide(plan, LONGEST),
        clients: plan.below(65),
        command_bytes: plan.below(257),
        client_timeout: wide(plan, LONGEST),
        client_backoff: wide(plan, LONGEST),
        count_bytes: plan.below(2),
        raft_checks: plan.below(2),
        start_spread: wide(plan, LONGEST),
    }
}

/// A number up to `most`, of every size: its bits are drawn first. Sometimes one of the ends.
fn wide(plan: &mut Plan, most: u64) -> u64 {
    let bits = plan.below(u64::from(most.max(1).ilog2()) + 2);
    let drawn = plan.below(1 << bits).min(most);
    match plan.below(16) {
        0 => 0,
        1 => most,
        _ => drawn,
    }
}

/// One call of the host, mostly a step.
fn call(run: &mut Run<Hostile>, plan: &mut Plan) {
    let ids = run.sim().ids().to_vec();
    let server = plan.server(&ids);
    match plan.below(32) {
        0 => run.propose(server),
        1 => {
            let timer = plan.pick(&[Timer::Election, Timer::Heartbeat]);
            run.fire_timer(server, timer);
        }
        2 => {
            let request = if plan.one_in(4) {
                plan.any()
            } else {
                plan.below(8)
            };
            run.confirm_leadership(server, request);
        }
        3..5 => {
            let at = match plan.below(64) {
                0 => plan.below(LATEST + 1),
                1..8 => 0,
                _ => run.now() + plan.below(10 * MS),
            };
            let fault = fault(plan, &ids);
            run.schedule(at.min(LATEST), fault);
        }
        5 => chaos(run, plan),
        6 if plan.one_in(4) => run.check_log_matching(),
        7 if plan.one_in(4) => run.check_durability(),
        8 => {
            let deadline = plan.below(run.now() + MS);
            run.step(deadline.min(LATEST));
        }
        _ => {
            let reach = if plan.one_in(256) { LATEST } else { REACH };
            run.step((run.now() + reach).min(LATEST));
        }
    }
}

/// Draws a schedule, and carries out none of it.
fn chaos(run: &mut Run<Hostile>, plan: &mut Plan) {
    let start = plan.below(MS);
    let chaos = Chaos {
        start,
        end: plan.pick(&[0, start, start + 50 * MS, LATEST]),
        mean_gap: plan.pick(&[MS, LONGEST]),
        max_duration: plan.pick(&[0, 100 * MS, 101 * MS, LONGEST]),
    };
    // A schedule up to the end of time would be long.
    let end = chaos.end.min(chaos.start + 40 * chaos.mean_gap);
    let mut rng = Rng::new(plan.any());
    run.chaos_schedule(&Chaos { end, ..chaos }, &mut rng);
}

fn fault(plan: &mut Plan, ids: &[NodeId]) -> Fault {
    let id = NodeId(plan.server(ids));
    let (from, to) = (id, NodeId(plan.server(ids)));
    let any_rate = plan.any() as u32;
    match plan.below(16) {
        0 => Fault::Crash(id),
        1..4 => Fault::CrashDuringNextInput(id),
        4 => Fault::Restart(id),
        5 => {
            let bound = plan.pick(&[1, MS, LONGEST + 1]);
            let downtime = Duration::from_nanos(plan.below(bound));
            Fault::CrashLeader { downtime }
        }
        6 => {
            let groups = 0..plan.below(9);
            Fault::Partition(groups.map(|_| group(plan, ids)).collect())
        }
        7 => Fault::Block { from, to },
        8 => Fault::Unblock { from, to },
        9 => Fault::HealLinks,
        10 => Fault::SetLoss(plan.pick(&[0, 1, 300_000, 999_999, any_rate])),
        11 => Fault::SetDuplication(plan.pick(&[0, 100_000, 500_000, any_rate])),
        12 => {
            let any = plan.below(65_537);
            Fault::SetDelayFactor(plan.pick(&[0, 1, 3, 65_536, any]))
        }
        _ => Fault::HealAll,
    }
}

/// Some of the servers; groups may share members.
fn group(plan: &mut Plan, ids: &[NodeId]) -> Vec<NodeId> {
    ids.iter().copied().filter(|_| plan.one_in(3)).collect()
}
