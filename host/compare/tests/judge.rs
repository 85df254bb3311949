//! The judge at the calls over the reference's modules, beside the reference itself; and, with the
//! feature `linked`, the proved calls beside both.

use compare::reference;
use judge::{Capacity, Faults, Happening, Opened, Plan, Verdict, Watch, campaign, judge};
use node::{
    AppliesEarly, Command, Config, Consensus, Correct, Entry, LogIndex, Message, NodeId, NotLeader,
    Output, Payload, Raft, RequestId, Status, Storage, Term, TermNotSaved, Timer, TruncatesTooFar,
    Variant, VoteNotSaved,
};
use nodes::{Adapted, Foreign, Hostile};
use port::Port;
use stepwise::Stepwise;

/// Seeds within which a mistake must be caught.
const WITHIN: u64 = 200;

fn verdict<N: Consensus, P: Port + Default>(plan: &Plan, seed: u64) -> Verdict {
    judge::<N, P>(plan, seed, &mut ()).expect("the plan is accepted")
}

/// The same verdict but for what a port alone can tell.
fn same(left: &Verdict, right: &Verdict) {
    let bare = |verdict: &Verdict| Verdict {
        raised: Vec::new(),
        ..verdict.clone()
    };
    assert_eq!(bare(left), bare(right));
}

/// The same verdicts at a port as at the reference.
fn as_the_reference<V: Variant, P: Port + Default>(plan: &Plan, seeds: u64) {
    let verdicts = campaign::<Raft<V>, P>(plan, 0..seeds, |_| ()).expect("the plan is accepted");
    assert_eq!(verdicts.len() as u64, seeds);
    for verdict in &verdicts {
        let expected = reference::judge::<Adapted<Raft<V>>>(plan, verdict.seed);
        same(verdict, &expected);
    }
}

/// Plans with other numbers of servers and clients, and without some faults.
fn plans() -> Vec<Plan> {
    let mut plans = vec![Plan::default()];
    for (servers, clients) in [(1, 1), (2, 0), (5, 3), (8, 2)] {
        let mut plan = Plan::default();
        plan.settings.servers = servers;
        plan.settings.clients = clients;
        plan.settings.start_spread = 100_000_000 * (servers % 2);
        plans.push(plan);
    }
    plans.push(Plan {
        faults: Faults::NONE,
        ..Plan::default()
    });
    plans
}

fn every_verdict_is_the_references<P: Port + Default>(seeds: u64) {
    for plan in plans() {
        as_the_reference::<Correct, P>(&plan, 2 * seeds);
        as_the_reference::<TermNotSaved, P>(&plan, seeds);
        as_the_reference::<VoteNotSaved, P>(&plan, seeds);
        as_the_reference::<AppliesEarly, P>(&plan, seeds);
        as_the_reference::<TruncatesTooFar, P>(&plan, seeds);
    }
}

#[test]
fn verdicts_are_the_references() {
    every_verdict_is_the_references::<Stepwise>(2);
}

fn passes<P: Port + Default>(seeds: u64) {
    let verdicts = campaign::<Raft<Correct>, P>(&Plan::default(), 0..seeds, |_| ());
    let verdicts = verdicts.expect("the plan is accepted");
    let failed: Vec<_> = verdicts.iter().filter(|v| !v.passed()).collect();
    assert!(failed.is_empty(), "{failed:?}");
    assert!(verdicts.iter().all(|v| v.metrics.client_replies > 10));
    assert!(verdicts.iter().all(|v| v.settled));
}

#[test]
fn the_correct_node_passes() {
    passes::<Stepwise>(100);
}

/// Many clients leave no moment in which all have caught up, unless power fails everywhere.
#[test]
fn a_busy_node_is_not_blamed() {
    let mut plan = Plan::default();
    plan.settings.clients = 40;
    plan.settings.servers = 5;
    let verdicts = campaign::<Raft<Correct>, Stepwise>(&plan, 0..40, |_| ());
    let verdicts = verdicts.expect("the plan is accepted");
    assert!(verdicts.iter().all(Verdict::passed));
    assert!(verdicts.iter().any(|verdict| verdict.settled));
    for verdict in &verdicts[..4] {
        let expected = reference::judge::<Adapted<Raft<Correct>>>(&plan, verdict.seed);
        same(verdict, &expected);
    }
}

fn is_caught<V: Variant, P: Port + Default>() {
    let plan = Plan::default();
    let caught = (0..WITHIN).find(|seed| verdict::<Raft<V>, P>(&plan, *seed).reported > 0);
    assert!(caught.is_some(), "{} is not", std::any::type_name::<V>());
}

fn every_mistake_is_caught_by<P: Port + Default>() {
    is_caught::<VoteNotSaved, P>();
    is_caught::<TermNotSaved, P>();
    is_caught::<AppliesEarly, P>();
    is_caught::<TruncatesTooFar, P>();
}

#[test]
fn every_mistake_is_caught() {
    every_mistake_is_caught_by::<Stepwise>();
}

/// A run whose tables are too small is made again, and ends with the same verdict.
fn is_raised<P: Port + Default>(seeds: u64) {
    let usual = Plan::default();
    let mut tiny = usual.clone();
    tiny.limits.events = 1;
    tiny.limits.writes = 1;
    tiny.limits.history = 1;
    let mut full = Vec::new();
    for seed in 0..seeds {
        let expected = verdict::<Raft<Correct>, P>(&usual, seed);
        let judged = verdict::<Raft<Correct>, P>(&tiny, seed);
        same(&judged, &expected);
        full.extend(judged.raised);
    }
    assert!(full.iter().all(|raised| raised.to == 2 * raised.from));
    for capacity in [Capacity::Events, Capacity::Writes, Capacity::History] {
        let met = full.iter().any(|raised| raised.capacity == capacity);
        assert!(met, "{capacity} in {full:?}");
    }
}

#[test]
fn a_full_table_is_raised() {
    is_raised::<Stepwise>(6);
}

#[test]
fn a_node_of_the_references_trait_runs_unchanged() {
    let mut plan = Plan::default();
    // By these two the hostile node bounds its messages and its log.
    plan.settings.max_entries_per_message = 24;
    plan.settings.max_entries_in_flight = 24 + 11;
    plan.limits.payload = 256;
    plan.events = 2_000;
    for seed in 0..20 {
        let judged = verdict::<Foreign<Hostile>, Stepwise>(&plan, seed);
        same(&judged, &reference::judge::<Hostile>(&plan, seed));
        assert!(judged.reported > 0, "it keeps to no rule");
    }
}

// ----- Nodes that break their contract -------------------------------------------------

/// A Raft that does one thing wrong when it is first asked for a command.
struct Breaks<const HOW: u64>(Raft<Correct>);

const PUTS_OUTSIDE: u64 = 0;
const LONG_PAYLOAD: u64 = 1;
const LONG_MESSAGE: u64 = 2;
const APPLIES_OUTSIDE: u64 = 3;
const SENDS_TO_NOBODY: u64 = 4;
const LONG_TIMER: u64 = 5;
const PANICS: u64 = 6;
const PUTS_AT_ZERO: u64 = 7;

fn entry(length: usize) -> Entry {
    Entry {
        term: Term(1),
        payload: Payload::Command(Command(vec![0; length])),
    }
}

impl<const HOW: u64> Consensus for Breaks<HOW> {
    type Message = Message;

    fn start<S: Storage>(
        id: NodeId,
        cluster: &[NodeId],
        config: &Config,
        seed: u64,
        storage: &mut S,
    ) -> (Self, Vec<Output<Message>>) {
        let (node, outputs) = Raft::start(id, cluster, config, seed, storage);
        (Breaks(node), outputs)
    }

    fn step<S: Storage>(
        &mut self,
        storage: &mut S,
        from: NodeId,
        message: Message,
    ) -> Vec<Output<Message>> {
        self.0.step(storage, from, message)
    }

    fn on_timer<S: Storage>(&mut self, storage: &mut S, timer: Timer) -> Vec<Output<Message>> {
        self.0.on_timer(storage, timer)
    }

    fn propose<S: Storage>(
        &mut self,
        storage: &mut S,
        _command: Command,
    ) -> Result<Vec<Output<Message>>, NotLeader> {
        let message = Message::AppendEntries {
            term: Term(1),
            prev_index: LogIndex(0),
            prev_term: Term(0),
            entries: vec![entry(16); 100],
            commit: LogIndex(0),
            round: 0,
        };
        let vote = Message::Vote {
            term: Term(1),
            granted: false,
        };
        match HOW {
            PUTS_OUTSIDE => storage.put(LogIndex(385), entry(16)),
            PUTS_AT_ZERO => storage.put(LogIndex(0), entry(16)),
            LONG_PAYLOAD => storage.put(LogIndex(1), entry(17)),
            PANICS => panic!("a node's own mistake"),
            _ => {}
        }
        let to = NodeId(if HOW == SENDS_TO_NOBODY { 4 } else { 1 });
        Ok(vec![match HOW {
            LONG_MESSAGE => Output::Send { to, message },
            SENDS_TO_NOBODY => Output::Send { to, message: vote },
            APPLIES_OUTSIDE => Output::Apply {
                index: LogIndex(385),
                payload: Payload::Noop,
            },
            _ => Output::SetTimer {
                timer: Timer::Election,
                after: std::time::Duration::from_secs(2_000),
            },
        }])
    }

    fn confirm_leadership<S: Storage>(
        &mut self,
        storage: &mut S,
        request: RequestId,
    ) -> Result<Vec<Output<Message>>, NotLeader> {
        self.0.confirm_leadership(storage, request)
    }

    fn status(&self) -> Status {
        self.0.status()
    }

    fn message_kind(message: &Message) -> &'static str {
        Raft::<Correct>::message_kind(message)
    }

    fn entry_count(message: &Message) -> usize {
        Raft::<Correct>::entry_count(message)
    }
}

fn is_reported<const HOW: u64, P: Port + Default>(call: &str, refusal: u64) {
    let verdict = verdict::<Breaks<HOW>, P>(&Plan::default(), 7);
    assert!(!verdict.passed());
    let fault = verdict.fault.expect("the node breaks its contract");
    assert_eq!((fault.call, fault.refusal), (call, refusal), "{fault}");
    assert_eq!(fault.seed, 7);
    assert!((1..=3).contains(&fault.server) && fault.time > 0, "{fault}");
}

fn every_breach_is_reported_by<P: Port + Default>() {
    is_reported::<PUTS_OUTSIDE, P>("write_put", 8);
    is_reported::<PUTS_AT_ZERO, P>("write_put", 8);
    is_reported::<LONG_PAYLOAD, P>("write_put", 9);
    is_reported::<LONG_MESSAGE, P>("output_send", 9);
    is_reported::<APPLIES_OUTSIDE, P>("output_apply", 8);
    is_reported::<SENDS_TO_NOBODY, P>("output_send", 7);
    is_reported::<LONG_TIMER, P>("output_set_timer", 9);
    is_reported::<PANICS, P>("propose", 0);
}

#[test]
fn a_broken_contract_is_reported() {
    every_breach_is_reported_by::<Stepwise>();
}

#[test]
fn wrong_settings_are_refused() {
    let mut plan = Plan::default();
    plan.settings.servers = 9;
    let refused = judge::<Raft<Correct>, Stepwise>(&plan, 1, &mut ()).unwrap_err();
    assert_eq!((refused.call, refused.refusal), ("start", 1));
    assert_eq!(
        refused.to_string(),
        "start is refused with 1: there are 1 to 8 servers"
    );
    assert!(campaign::<Raft<Correct>, Stepwise>(&plan, 0..9, |_| ()).is_err());
}

// ----- What a watch is told ------------------------------------------------------------

/// Counts what is told, and follows what must agree.
#[derive(Default)]
struct Counts {
    time: u64,
    synced: u64,
    cut: u64,
    sent: u64,
    bytes: u64,
    starts: u64,
    stops: u64,
    faults: u64,
    violations: u64,
    waiting: usize,
    up: [bool; 8],
    again: u64,
}

impl Watch for Counts {
    fn happened(&mut self, time: u64, server: u64, what: &Happening<'_>) {
        assert!(self.time <= time, "time goes on");
        self.time = time;
        match what {
            Happening::Opened(Opened::Start { incarnation }) => {
                self.starts += 1;
                let up = &mut self.up[server as usize - 1];
                assert!(!*up, "a server that starts was down");
                *up = true;
                assert!(*incarnation > 0 || time == 0);
            }
            Happening::Wrote(_) => self.waiting += 1,
            Happening::Synced { writes } | Happening::Cut { writes } => {
                assert_eq!(*writes, self.waiting);
                self.waiting = 0;
                match what {
                    Happening::Cut { .. } => self.cut += 1,
                    _ => self.synced += 1,
                }
            }
            Happening::NothingToSync => assert_eq!(self.waiting, 0),
            Happening::Sent { bytes, .. } => {
                self.sent += 1;
                self.bytes += bytes;
            }
            Happening::Stopped => {
                self.stops += 1;
                self.up[server as usize - 1] = false;
            }
            Happening::Fault(_) => self.faults += 1,
            Happening::Violation(_) => self.violations += 1,
            _ => {}
        }
    }

    fn again(&mut self, _raised: &judge::Raised) {
        let again = self.again + 1;
        *self = Counts {
            again,
            ..Counts::default()
        };
    }
}

fn is_told<V: Variant, P: Port + Default>(seed: u64) -> Counts {
    let mut counts = Counts::default();
    let judged = judge::<Raft<V>, P>(&Plan::default(), seed, &mut counts);
    let judged = judged.expect("the plan is accepted");
    same(&judged, &verdict::<Raft<V>, P>(&Plan::default(), seed));
    assert_eq!(counts.synced, judged.metrics.fsyncs);
    assert_eq!(counts.sent, judged.metrics.messages);
    assert_eq!(counts.bytes, judged.metrics.bytes);
    assert_eq!(counts.violations, judged.violations.len() as u64);
    assert!(counts.starts >= 3 && counts.faults > 0);
    counts
}

#[test]
fn a_watch_is_told_everything() {
    let told: Vec<Counts> = (0..20).map(is_told::<Correct, Stepwise>).collect();
    assert!(told.iter().any(|counts| counts.cut > 0));
    assert!(told.iter().any(|counts| counts.stops > counts.cut));
    let told = (0..20).map(is_told::<TermNotSaved, Stepwise>);
    assert!(told.map(|counts| counts.violations).sum::<u64>() > 0);
}

// ----- The proved calls ------------------------------------------------------------------

#[cfg(feature = "linked")]
mod linked {
    use super::*;
    use library::Library;

    #[test]
    fn verdicts_are_the_references() {
        every_verdict_is_the_references::<Library>(1);
    }

    #[test]
    fn the_correct_node_passes() {
        passes::<Library>(20);
    }

    #[test]
    fn every_mistake_is_caught() {
        every_mistake_is_caught_by::<Library>();
    }

    #[test]
    fn a_full_table_is_raised() {
        is_raised::<Library>(2);
    }

    #[test]
    fn a_broken_contract_is_reported() {
        every_breach_is_reported_by::<Library>();
    }

    #[test]
    fn a_watch_is_told_everything() {
        for seed in 0..3 {
            is_told::<Correct, Library>(seed);
        }
    }

    #[test]
    fn a_node_of_the_references_trait_runs_unchanged() {
        let mut plan = Plan::default();
        plan.settings.max_entries_per_message = 24;
        plan.settings.max_entries_in_flight = 24 + 11;
        plan.limits.payload = 256;
        plan.events = 500;
        for seed in 0..5 {
            let judged = verdict::<Foreign<Hostile>, Library>(&plan, seed);
            same(&judged, &reference::judge::<Hostile>(&plan, seed));
        }
    }
}
