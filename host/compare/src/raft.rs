//! A run of a Raft: faults for a while, then quiet, then the checks.

use consensus::{NodeId, Storage, Timer};
use nodes::{Raft, Variant};
use observe::{Recording, Run};
use port::{Chaos, Settings};
use sim::{Fault, Stream, stream_rng};

use crate::plan::{MS, Plan};

/// When the faults end.
const FAULTS_END: u64 = 1_500 * MS;

/// When the run is checked.
const CHECKED: u64 = 2_500 * MS;

/// When the run is checked at the latest, and after how many more events.
const LATEST: u64 = 20_000 * MS;
const PATIENCE: u64 = 3_000;

/// The log index at which a run is brought to its end.
const LONG_LOG: u64 = 900;

/// The log index at which it ends in any case; document 01 has 1,024.
const LONGEST_LOG: u64 = 1_000;

pub(crate) fn record<V: Variant>(seed: u64) -> Recording {
    let mut plan = Plan::new(seed);
    let settings = settings(&mut plan);
    let mut run = Run::<Raft<V>>::start(&settings, seed);
    schedule(&mut run, &mut plan, seed);
    let mut next_contest = 0;
    while run.step(FAULTS_END) && longest_log(&run) < LONG_LOG {
        if plan.one_in(48) {
            direct_call(&mut run, &mut plan);
        }
        if plan.one_in(512) {
            run.check_log_matching();
        }
        if next_contest <= run.now() {
            contest(&mut run, &mut plan, settings.one_way_delay);
            next_contest = run.now() + 60 * MS + plan.below(200 * MS);
        }
    }
    while run.step(CHECKED) && longest_log(&run) < LONG_LOG {}
    for _ in 0..PATIENCE {
        if caught_up(&run) || longest_log(&run) >= LONGEST_LOG {
            break;
        }
        run.step(LATEST);
    }
    run.check_log_matching();
    run.check_durability();
    run.finish()
}

fn settings(plan: &mut Plan) -> Settings {
    let one_way_delay = plan.pick(&[MS, 7_500_000, 20 * MS, 20 * MS]);
    // Few enough that the log of a correct node stays short.
    let clients = plan.below(if one_way_delay == MS { 2 } else { 4 });
    Settings {
        servers: plan.pick(&[1, 2, 3, 3, 3, 3, 4, 5, 5, 8]),
        heartbeat_interval: plan.pick(&[10 * MS, 30 * MS, 75 * MS]),
        election_timeout_min: 150 * MS,
        election_timeout_max: plan.pick(&[170 * MS, 200 * MS, 300 * MS]),
        max_entries_per_message: plan.pick(&[4, 16]),
        max_entries_in_flight: 1_024,
        one_way_delay,
        clients,
        command_bytes: plan.pick(&[0, 12, 13, 40, 128]),
        client_timeout: plan.pick(&[100 * MS, 500 * MS]),
        client_backoff: 50 * MS,
        count_bytes: plan.below(2),
        raft_checks: 1,
        start_spread: plan.pick(&[0, 100 * MS]),
    }
}

/// The reference's chaos, and crashes with quick restarts.
fn schedule<V: Variant>(run: &mut Run<Raft<V>>, plan: &mut Plan, seed: u64) {
    let ids = run.sim().ids().to_vec();
    let chaos = Chaos {
        start: 100 * MS,
        end: FAULTS_END,
        mean_gap: plan.pick(&[60, 150, 400]) * MS,
        max_duration: plan.pick(&[50, 200, 600]) * MS,
    };
    let mut faults = stream_rng(seed, Stream::Faults);
    for (at, fault) in run.chaos_schedule(&chaos, &mut faults) {
        run.schedule(sim::leaves::nanos(at), fault);
    }
    for _ in 0..plan.below(24) {
        let at = plan.below(FAULTS_END - 50 * MS);
        let id = NodeId(plan.server(&ids));
        let crash = if plan.one_in(2) {
            Fault::Crash(id)
        } else {
            Fault::CrashDuringNextInput(id)
        };
        run.schedule(at, crash);
        run.schedule(at + plan.below(50 * MS), Fault::Restart(id));
    }
}

/// Two candidates at once, and crashes with quick restarts while the votes are on their way.
fn contest<V: Variant>(run: &mut Run<Raft<V>>, plan: &mut Plan, delay: u64) {
    let ids = run.sim().ids().to_vec();
    let leader = run.sim().leader().map(|(id, _)| id);
    let others = ids.iter().filter(|id| Some(**id) != leader);
    let first = plan.below(ids.len() as u64) as usize;
    for id in others.cycle().skip(first).take(2) {
        run.fire_timer(id.0, Timer::Election);
    }
    for id in ids {
        if plan.one_in(2) {
            let at = run.now() + delay / 2 + plan.below(2 * delay);
            run.schedule(at, Fault::Crash(id));
            run.schedule(at + plan.below(delay / 4), Fault::Restart(id));
        }
    }
}

fn direct_call<V: Variant>(run: &mut Run<Raft<V>>, plan: &mut Plan) {
    let leader = run.sim().leader().map(|(id, _)| id.0);
    let anyone = plan.server(run.sim().ids());
    let server = leader.filter(|_| plan.one_in(2)).unwrap_or(anyone);
    match plan.below(5) {
        0 => run.fire_timer(server, Timer::Heartbeat),
        1 => run.fire_timer(anyone, Timer::Election),
        2 | 3 => run.confirm_leadership(server, plan.below(1_000)),
        _ => run.propose(server),
    }
}

fn longest_log<V: Variant>(run: &Run<Raft<V>>) -> u64 {
    let sim = run.sim();
    let last = sim.ids().iter().map(|id| sim.storage(*id).last_index().0);
    last.max().unwrap_or_default()
}

/// Whether every server has applied what was acknowledged.
fn caught_up<V: Variant>(run: &Run<Raft<V>>) -> bool {
    let sim = run.sim();
    let acknowledged = sim.replies().iter().map(|reply| reply.index).max();
    let applied = sim.ids().iter().map(|id| sim.applied(*id)).min();
    acknowledged <= applied
}
