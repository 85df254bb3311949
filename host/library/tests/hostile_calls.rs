//! Calls with hostile arguments, in any phase and order, made beside the reference's modules: equal answers where these
//! ask the same questions, and no harm to what was lent.

#![cfg(feature = "linked")]

mod host;
mod layout;
mod second;

use std::collections::BTreeMap;

use compare::Mode;
use compare::plan::{MS, Plan};
use host::{Hostile, Lent, OLD, recorded};
use layout::judge;
use library::Library;
use port::kinds::input;
use port::{Input, Limits, Opened, Port, Settings, Stepped, area_length};
use stepwise::Stepwise;
use trace::{Answer, Call, Numbers, Trace};

/// Calls in all, and at most in one run.
const CALLS: usize = 500_000;
const LONGEST_RUN: usize = 3_000;

/// Runs from whose middle calls are made.
const RECORDED: [(Mode, u64); 8] = [
    (Mode::Raft, 5),
    (Mode::Raft, 9),
    (Mode::VoteNotSaved, 6),
    (Mode::TermNotSaved, 5),
    (Mode::AppliesEarly, 5),
    (Mode::TruncatesTooFar, 9),
    (Mode::Hostile, 26),
    (Mode::Hostile, 31),
];

/// The refusals that each call meets. The counters that let others find no room are written in `full_tables.rs`.
const REFUSALS: [(u64, &[u64]); 27] = [
    (1, &[1, 2, 3, 4, 10]),
    (2, &[6, 9, 10]),
    (3, &[6, 7]),
    (4, &[6, 7, 9]),
    (5, &[6, 7]),
    (6, &[6, 7, 9, 10]),
    (7, &[6, 9, 10]),
    (8, &[6, 8, 9, 10]),
    (9, &[6, 10]),
    (10, &[6, 9, 10]),
    (11, &[6, 7, 9, 10]),
    (12, &[6, 9, 10]),
    (13, &[6, 9]),
    (14, &[6, 8, 9, 10]),
    (15, &[6, 10]),
    (16, &[6, 10]),
    (17, &[6, 9, 10]),
    (18, &[6]),
    (19, &[6]),
    (20, &[7]),
    (21, &[7]),
    (22, &[7]),
    (23, &[7, 9]),
    (25, &[7]),
    (26, &[9]),
    (28, &[7]),
    (33, &[1, 7, 9, 10, 11]),
];

#[test]
fn hostile_calls_do_no_harm() {
    let recorded = RECORDED.map(|(mode, seed)| recorded(mode, seed));
    let mut met = BTreeMap::new();
    let (mut calls, mut runs) = (0, 0);
    while calls < CALLS {
        let mut plan = Plan::new(runs);
        let run = match plan.below(16) {
            place @ 0..8 => Run::recorded(plan, &recorded[place as usize]),
            _ => Run::small(plan),
        };
        calls += run.make(&mut met);
        runs += 1;
    }
    let accepted = met.iter().filter(|((_, refusal), _)| *refusal == 0);
    assert_eq!(accepted.clone().count(), 34, "every call is accepted");
    let accepted: usize = accepted.map(|(_, count)| count).sum();
    println!("{runs} runs, {calls} calls, {accepted} of them accepted");
    assert!(accepted > CALLS / 4 && accepted < CALLS * 3 / 4);
    let refused = met.into_keys().filter(|(_, refusal)| *refusal != 0);
    let each = |(call, refusals): &(u64, &'static [u64])| {
        let call = *call;
        refusals.iter().map(move |refusal| (call, *refusal))
    };
    let expected: Vec<_> = REFUSALS.iter().flat_map(each).collect();
    assert_eq!(refused.collect::<Vec<_>>(), expected);
}

/// A run at the library and at the reference's modules.
struct Run {
    hostile: Hostile,
    lent: Lent,
    beside: Stepwise,
}

impl Run {
    /// A run with small tables, started.
    fn small(mut plan: Plan) -> Self {
        let settings = settings(&mut plan);
        let limits = limits(&mut plan, &settings);
        let seed = plan.any();
        Run::started(plan, settings, limits, seed)
    }

    /// A recorded run up to some place.
    fn recorded(mut plan: Plan, trace: &Trace) -> Self {
        let mut acts = trace.exchanges.iter().filter(|e| !e.call.reads());
        let Some(Call::Start {
            settings,
            limits,
            seed,
        }) = acts.next().map(|e| &e.call)
        else {
            panic!("a run begins with a start");
        };
        let made = plan.below(trace.exchanges.len() as u64 / 10);
        let mut run = Run::started(plan, **settings, **limits, *seed);
        for exchange in acts.take(made as usize) {
            let buffer = run.lent.area().len();
            assert_eq!(run.lent.make(&exchange.call, buffer), exchange.answer);
            assert!(run.agrees(&exchange.call, buffer, &exchange.answer));
        }
        run
    }

    fn started(plan: Plan, settings: Settings, limits: Limits, seed: u64) -> Self {
        let area = vec![OLD; area_length(&settings, &limits) as usize];
        let mut lent = Lent::new(&area);
        let mut beside = Stepwise::default();
        let start = Call::Start {
            settings: Box::new(settings),
            limits: Box::new(limits),
            seed,
        };
        let answer = lent.make(&start, 0);
        assert_eq!(answer, start.make(&mut beside, &mut area.clone(), &mut []));
        assert_eq!(answer.numbers.refusal(), 0);
        let hostile = Hostile {
            plan,
            settings,
            limits,
            now: 0,
            key: (0, 0),
            wild: 5,
        };
        Run {
            hostile,
            lent,
            beside,
        }
    }

    /// Makes calls, up to the first that finds a table full of which the modules do not ask. Answers how many.
    fn make(mut self, met: &mut BTreeMap<(u64, u64), usize>) -> usize {
        for made in 1..=LONGEST_RUN {
            let run = Library.read_run(self.lent.area());
            assert_eq!(run, self.beside.read_run(&[]));
            self.hostile.now = run.now;
            let call = self.hostile.call(run.phase);
            let buffer = self.hostile.buffer(&call);
            let answer = self.lent.make(&call, buffer);
            let refusal = answer.numbers.refusal();
            *met.entry((call.number(), refusal)).or_default() += 1;
            if !self.agrees(&call, buffer, &answer) {
                return made;
            }
            if refusal == 0 {
                self.follow(&call, &answer);
            }
        }
        LONGEST_RUN
    }

    /// Holds the answer to that of the modules. Answers whether the two are still at the same state.
    fn agrees(&mut self, call: &Call, buffer: usize, answer: &Answer) -> bool {
        if may_never_end(call) {
            let refusal = answer.numbers.refusal();
            assert!(
                [0, 1, 7, 9, 10, 11].contains(&refusal),
                "{call:?}: {answer:?}"
            );
            return true;
        }
        let mut area = vec![0; self.lent.area().len()];
        let beside = call.make(&mut self.beside, &mut area, &mut vec![OLD; buffer]);
        if *answer == beside {
            return true;
        }
        let full = answer.numbers.refusal() == 10 && beside.numbers.refusal() == 0;
        assert!(full, "{call:?}: {answer:?}, and the modules say {beside:?}");
        false
    }

    /// An accepted call leaves a state; what it tells is used by later calls.
    fn follow(&mut self, call: &Call, answer: &Answer) {
        if let Call::Start {
            settings, limits, ..
        } = call
        {
            (self.hostile.settings, self.hostile.limits) = (**settings, **limits);
        }
        if !call.reads() {
            assert_eq!(judge(self.lent.area()), Ok(()), "{call:?}");
        }
        match answer.numbers {
            Numbers::Opened(Opened { input: i, .. })
            | Numbers::Stepped(Stepped { input: i, .. }) => {
                if let Input {
                    kind: input::PROPOSAL,
                    first,
                    second,
                    ..
                } = i
                {
                    self.hostile.key = (first, second);
                }
            }
            _ => {}
        }
    }
}

/// Whether the reference may draw a schedule for ever, or for very long.
fn may_never_end(call: &Call) -> bool {
    let Call::ChaosSchedule { servers, chaos, .. } = call else {
        return false;
    };
    let one = servers.len() > 1 && servers.iter().all(|id| *id == servers[0]);
    let faults = chaos.end.saturating_sub(chaos.start) / chaos.mean_gap.max(1);
    one || faults > 1_000
}

fn settings(plan: &mut Plan) -> Settings {
    Settings {
        servers: plan.pick(&[1, 2, 3, 3, 5, 8]),
        heartbeat_interval: MS,
        election_timeout_min: 10 * MS,
        election_timeout_max: 20 * MS,
        max_entries_per_message: 1,
        max_entries_in_flight: 1,
        one_way_delay: plan.pick(&[0, 1, MS, 1 << 40]),
        clients: plan.pick(&[0, 1, 2, 5]),
        command_bytes: plan.pick(&[0, 12, 13]),
        client_timeout: plan.pick(&[0, 5 * MS, 1 << 40]),
        client_backoff: plan.pick(&[0, MS]),
        count_bytes: plan.below(2),
        raft_checks: plan.below(2),
        start_spread: plan.pick(&[0, 0, MS]),
    }
}

fn limits(plan: &mut Plan, settings: &Settings) -> Limits {
    Limits {
        log: plan.pick(&[1, 3, 12]),
        payload: plan.pick(&[13, 24, 40]),
        message: plan.pick(&[0, 1, 24]),
        events: settings.servers + settings.clients + plan.pick(&[0, 8, 60]),
        writes: plan.pick(&[1, 3, 12]),
        history: plan.pick(&[1, 8, 60]),
    }
}
