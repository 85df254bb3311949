//! Tables that fill at calls of every kind: the judge finds out which one it was.

use std::collections::BTreeSet;

use judge::{Capacity, Faults, Plan, Raised, judge};
use node::{Correct, Raft};
use port::{
    Applied, AppliedEntry, Capacities, Chaos, Confirmation, Done, Drawn, Entry, HardState, Leader,
    Limits, Log, Metrics, Opened, Port, Refused, Reply, Run, Sealed, SentBy, Settings, Status,
    Stepped, Violation, kinds,
};
use stepwise::Stepwise;

/// The calls over the reference's modules, which also refuse with 10 where the queue or the history
/// may not have room, by rules of their own: a verdict is the same in any case.
#[derive(Default)]
struct Tight {
    calls: Stepwise,
    limits: Limits,
}

impl Tight {
    /// Whether so many more events fit.
    fn events<A: Refused>(&mut self, area: &[u8], more: u64) -> Option<A> {
        let queued = self.calls.read_run(area).queued;
        let full = queued + more > self.limits.events;
        full.then(|| A::refused(kinds::refusal::ROOM))
    }

    /// Whether one more row of this history fits.
    fn history<A: Refused>(&mut self, rows: u64) -> Option<A> {
        let full = rows >= self.limits.history;
        full.then(|| A::refused(kinds::refusal::ROOM))
    }
}

/// Calls that are handed on as they are.
macro_rules! handed_on {
    ($($name:ident($($area:ident: $kind:ty)?; $($argument:ident: $type:ty),*) -> $answer:ty;)*) => {
        $(fn $name(&mut self, $($area: $kind,)? $($argument: $type),*) -> $answer {
            self.calls.$name($($area,)? $($argument),*)
        })*
    };
}

impl Port for Tight {
    fn start(
        &mut self,
        area: &mut [u8],
        settings: &Settings,
        limits: &Limits,
        seed: u64,
    ) -> Opened {
        self.limits = *limits;
        let first = settings.servers + settings.clients;
        if settings.start_spread > 0 && first > limits.events {
            return Opened::refused(kinds::refusal::ROOM);
        }
        self.calls.start(area, settings, limits, seed)
    }

    fn step(&mut self, area: &mut [u8], deadline: u64, buffer: &mut [u8]) -> Stepped {
        let replies = self.calls.read_run(area).replies;
        let refused = self.events(area, 1).or_else(|| self.history(replies));
        refused.unwrap_or_else(|| self.calls.step(area, deadline, buffer))
    }

    fn seal(&mut self, area: &mut [u8], refused: u64, hinted: u64, leader: u64) -> Sealed {
        let server = self.calls.read_run(area).server;
        let seen = self.calls.read_log(area, server).count;
        let full = self.history(seen / 2);
        full.unwrap_or_else(|| self.calls.seal(area, refused, hinted, leader))
    }

    fn output_send(&mut self, area: &mut [u8], to: u64, message: &[u8], entries: u64) -> Done {
        let full = self.events(area, 2);
        full.unwrap_or_else(|| self.calls.output_send(area, to, message, entries))
    }

    fn output_apply(&mut self, area: &mut [u8], index: u64, kind: u64, payload: &[u8]) -> Done {
        let full = self.events(area, 1);
        full.unwrap_or_else(|| self.calls.output_apply(area, index, kind, payload))
    }

    fn end(
        &mut self,
        area: &mut [u8],
        role: u64,
        term: u64,
        hinted: u64,
        leader: u64,
        commit: u64,
    ) -> Opened {
        let now = self.calls.read_run(area).now;
        let clients = self.calls.read_settings(area).clients;
        let full = self.events(area, if now == 0 { clients.max(1) } else { 1 });
        full.unwrap_or_else(|| self.calls.end(area, role, term, hinted, leader, commit))
    }

    handed_on! {
        propose(area: &mut [u8]; server: u64) -> Opened;
        fire_timer(area: &mut [u8]; server: u64, timer: u64) -> Opened;
        confirm_leadership(area: &mut [u8]; server: u64, request: u64) -> Opened;
        schedule(area: &mut [u8]; at: u64, fault: u64, first: u64, second: u64, groups: &[u8]) -> Done;
        write_hard_state(area: &mut [u8]; term: u64, voted: u64, vote: u64) -> Done;
        write_put(area: &mut [u8]; index: u64, term: u64, kind: u64, payload: &[u8]) -> Done;
        write_truncate(area: &mut [u8]; from: u64) -> Done;
        output_set_timer(area: &mut [u8]; timer: u64, after: u64) -> Done;
        output_cancel_timer(area: &mut [u8]; timer: u64) -> Done;
        output_confirmed(area: &mut [u8]; request: u64, read_index: u64) -> Done;
        output_lost(area: &mut [u8]; request: u64) -> Done;
        check_log_matching(area: &mut [u8];) -> Done;
        check_durability(area: &mut [u8];) -> Done;
        read_status(area: &[u8]; server: u64) -> Status;
        read_hard_state(area: &[u8]; server: u64) -> HardState;
        read_log(area: &[u8]; server: u64) -> Log;
        read_entry(area: &[u8]; server: u64, index: u64, buffer: &mut [u8]) -> Entry;
        read_leader(area: &[u8];) -> Leader;
        read_applied(area: &[u8]; server: u64) -> Applied;
        read_applied_entry(area: &[u8]; index: u64, buffer: &mut [u8]) -> AppliedEntry;
        read_metrics(area: &[u8];) -> Metrics;
        read_sent_by(area: &[u8]; server: u64) -> SentBy;
        read_reply(area: &[u8]; place: u64) -> Reply;
        read_confirmation(area: &[u8]; place: u64) -> Confirmation;
        read_violation(area: &[u8]; place: u64) -> Violation;
        read_run(area: &[u8];) -> Run;
        read_settings(area: &[u8];) -> Capacities;
        chaos_schedule(; servers: &[u8], chaos: &Chaos, generator: &mut u64, list: &mut [u8]) -> Drawn;
    }
}

/// The usual plan, and one with many clients and no fault, whose first events come spread out.
fn plans() -> [Plan; 2] {
    let mut quiet = Plan {
        faults: Faults::NONE,
        ..Plan::default()
    };
    quiet.settings.clients = 40;
    quiet.settings.start_spread = 100_000_000;
    [Plan::default(), quiet]
}

/// The verdict under tiny limits, which is that under the usual ones; and what was raised.
fn raised(plan: &Plan, seed: u64) -> Vec<Raised> {
    let mut expected = judge::<Raft<Correct>, Stepwise>(plan, seed, &mut ()).unwrap();
    expected.raised.clear();
    let mut tiny = plan.clone();
    tiny.limits.events = 1;
    tiny.limits.writes = 1;
    tiny.limits.history = 1;
    let mut judged = judge::<Raft<Correct>, Tight>(&tiny, seed, &mut ()).unwrap();
    let raised = std::mem::take(&mut judged.raised);
    assert_eq!(judged, expected);
    raised
}

#[test]
fn the_table_that_was_full_is_raised() {
    let mut met = BTreeSet::new();
    for (plan, seed) in plans()
        .iter()
        .flat_map(|plan| (0..4).map(move |seed| (plan, seed)))
    {
        for step in raised(plan, seed) {
            assert_eq!(step.to, 2 * step.from, "{step}");
            met.insert((step.call, step.capacity));
        }
    }
    let expected = [
        ("start", Capacity::Events),
        ("step", Capacity::Events),
        ("step", Capacity::History),
        ("seal", Capacity::History),
        ("output_send", Capacity::Events),
        ("end", Capacity::Events),
        ("schedule", Capacity::Events),
        ("write_put", Capacity::Writes),
        ("write_hard_state", Capacity::Writes),
    ];
    for raised in expected {
        assert!(met.contains(&raised), "{raised:?} in {met:?}");
    }
}

#[test]
fn what_does_not_fit_the_largest_tables_is_told() {
    let mut plan = Plan::default();
    plan.limits.writes = Capacity::MOST;
    plan.limits.payload = 12;
    plan.settings.command_bytes = 12;
    let judged = judge::<Floods, Stepwise>(&plan, 1, &mut ()).unwrap();
    let fault = judged.fault.expect("the node's writes do not fit");
    assert_eq!(
        (fault.call, fault.refusal),
        ("write_truncate", 10),
        "{fault}"
    );
}

/// A node that writes without end.
struct Floods;

impl node::Consensus for Floods {
    type Message = u8;

    fn start<S: node::Storage>(
        _id: node::NodeId,
        _cluster: &[node::NodeId],
        _config: &node::Config,
        _seed: u64,
        storage: &mut S,
    ) -> (Self, Vec<node::Output<u8>>) {
        for _ in 0..=Capacity::MOST {
            storage.truncate(node::LogIndex(1));
        }
        (Floods, Vec::new())
    }

    fn step<S: node::Storage>(
        &mut self,
        _storage: &mut S,
        _from: node::NodeId,
        _message: u8,
    ) -> Vec<node::Output<u8>> {
        Vec::new()
    }

    fn on_timer<S: node::Storage>(
        &mut self,
        _storage: &mut S,
        _timer: node::Timer,
    ) -> Vec<node::Output<u8>> {
        Vec::new()
    }

    fn propose<S: node::Storage>(
        &mut self,
        _storage: &mut S,
        _command: node::Command,
    ) -> Result<Vec<node::Output<u8>>, node::NotLeader> {
        Err(node::NotLeader { leader: None })
    }

    fn confirm_leadership<S: node::Storage>(
        &mut self,
        _storage: &mut S,
        _request: node::RequestId,
    ) -> Result<Vec<node::Output<u8>>, node::NotLeader> {
        Err(node::NotLeader { leader: None })
    }

    fn status(&self) -> node::Status {
        node::Status {
            role: node::Role::Follower,
            term: node::Term(0),
            leader: None,
            commit_index: node::LogIndex(0),
        }
    }

    fn message_kind(_message: &u8) -> &'static str {
        "none"
    }

    fn entry_count(_message: &u8) -> usize {
        0
    }
}
