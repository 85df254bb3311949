//! The reference's values as the port's numbers, and back.

use std::time::Duration;

use consensus::{
    Command, Config, Entry, HardState, LogIndex, MemStorage, NodeId, Payload, Rng, Role, Status,
    Storage, Term, Timer,
};
use port::{Chaos, Settings, kinds};
use sim::{
    ChaosConfig, Check, Confirmation, Counts, Fault, Reply, SimConfig, SimTime, Violation, leaves,
};

/// A duration as its nanoseconds.
pub fn nanos(duration: Duration) -> u64 {
    u64::try_from(duration.as_nanos()).expect("durations within the limits fit")
}

/// A generator's state, which it shows only for debugging.
pub fn generator(rng: &Rng) -> u64 {
    let text = format!("{rng:?}");
    let digits = text.trim_matches(|c: char| !c.is_ascii_digit());
    digits.parse().expect("a generator shows its state")
}

/// Present or absent, and who.
pub fn optional(id: Option<NodeId>) -> (u64, u64) {
    id.map_or((0, 0), |NodeId(id)| (1, id))
}

/// Who, where present.
pub fn optional_of(present: u64, id: u64) -> Option<NodeId> {
    (present != 0).then_some(NodeId(id))
}

/// A timer's number.
pub fn timer(timer: Timer) -> u64 {
    match timer {
        Timer::Election => kinds::timer::ELECTION,
        Timer::Heartbeat => kinds::timer::HEARTBEAT,
    }
}

/// A payload's kind and the bytes of its command.
pub fn payload(payload: &Payload) -> (u64, Vec<u8>) {
    match payload {
        Payload::Noop => (kinds::payload::NOOP, Vec::new()),
        Payload::Command(command) => (kinds::payload::COMMAND, command.0.clone()),
    }
}

/// The payload of this kind with these bytes.
pub fn payload_of(kind: u64, bytes: &[u8]) -> Payload {
    match kind {
        kinds::payload::NOOP => Payload::Noop,
        _ => Payload::Command(Command(bytes.to_vec())),
    }
}

/// A server's status; zeros where it is stopped.
pub fn status(status: Option<Status>) -> port::Status {
    let Some(status) = status else {
        return port::Status::default();
    };
    let (hinted, leader) = optional(status.leader);
    port::Status {
        refusal: 0,
        running: 1,
        role: match status.role {
            Role::Follower => kinds::role::FOLLOWER,
            Role::Candidate => kinds::role::CANDIDATE,
            Role::Leader => kinds::role::LEADER,
        },
        term: status.term.0,
        hinted,
        leader,
        commit: status.commit_index.0,
    }
}

/// A role by its number.
pub fn role_of(role: u64) -> Role {
    match role {
        kinds::role::FOLLOWER => Role::Follower,
        kinds::role::CANDIDATE => Role::Candidate,
        _ => Role::Leader,
    }
}

/// Term and vote.
pub fn hard_state(state: HardState) -> port::HardState {
    let (voted, vote) = optional(state.voted_for);
    port::HardState {
        refusal: 0,
        term: state.term.0,
        voted,
        vote,
    }
}

/// The size of a log.
pub fn log(storage: &MemStorage) -> port::Log {
    let (count, last) = (storage.len() as u64, storage.last_index().0);
    port::Log {
        refusal: 0,
        count,
        last,
        gaps: last - count,
    }
}

/// An entry of a log, and the bytes of its command.
pub fn entry(entry: Option<&Entry>) -> (port::Entry, Vec<u8>) {
    let Some(entry) = entry else {
        return (port::Entry::default(), Vec::new());
    };
    let (kind, bytes) = payload(&entry.payload);
    let numbers = port::Entry {
        refusal: 0,
        present: 1,
        term: entry.term.0,
        kind,
        length: bytes.len() as u64,
    };
    (numbers, bytes)
}

/// A payload that was applied, and the bytes of its command.
pub fn applied_entry(applied: Option<&Payload>) -> (port::AppliedEntry, Vec<u8>) {
    let Some(applied) = applied else {
        return (port::AppliedEntry::default(), Vec::new());
    };
    let (kind, bytes) = payload(applied);
    let numbers = port::AppliedEntry {
        refusal: 0,
        present: 1,
        kind,
        length: bytes.len() as u64,
    };
    (numbers, bytes)
}

/// The leader of the highest term.
pub fn leader(leader: Option<(NodeId, Term)>) -> port::Leader {
    leader.map_or_else(port::Leader::default, |(id, term)| port::Leader {
        refusal: 0,
        present: 1,
        server: id.0,
        term: term.0,
    })
}

/// What one server has sent.
pub fn sent_by(sent: Counts) -> port::SentBy {
    port::SentBy {
        refusal: 0,
        messages: sent.messages,
        bytes: sent.bytes,
        entries: sent.entries,
    }
}

/// A client's reply to its command of this client and sequence number; zeros where there is none.
pub fn reply(reply: Option<(&Reply, (u64, u64))>) -> port::Reply {
    reply.map_or_else(port::Reply::default, |(reply, (client, sequence))| {
        port::Reply {
            refusal: 0,
            present: 1,
            sent: leaves::nanos(reply.sent),
            received: leaves::nanos(reply.received),
            index: reply.index.0,
            client,
            sequence,
        }
    })
}

/// A leadership confirmation; zeros where there is none.
pub fn confirmation(confirmation: Option<&Confirmation>) -> port::Confirmation {
    confirmation.map_or_else(port::Confirmation::default, |answer| port::Confirmation {
        refusal: 0,
        present: 1,
        request: answer.request.0,
        confirmed: answer.read_index.is_some().into(),
        read_index: answer.read_index.unwrap_or(LogIndex::ZERO).0,
    })
}

/// A violation: its check's number and the numbers of its text; zeros where there is none.
pub fn violation(violation: Option<&Violation>) -> port::Violation {
    let Some(violation) = violation else {
        return port::Violation::default();
    };
    let text = violation.detail.split(|c: char| !c.is_ascii_digit());
    let mut numbers = [0; 5];
    let mut count = 0;
    for number in text.filter(|part| !part.is_empty()) {
        numbers[count] = number.parse().expect("the numbers of a text have 64 bits");
        count += 1;
    }
    port::Violation {
        refusal: 0,
        present: 1,
        time: leaves::nanos(violation.time),
        check: check(violation.check),
        count: count as u64,
        numbers,
    }
}

fn check(check: Check) -> u64 {
    match check {
        Check::ElectionSafety => 0,
        Check::StateMachineSafety => 1,
        Check::ApplyOrder => 2,
        Check::UniqueEntries => 3,
        Check::Durability => 4,
        Check::Liveness => 5,
        Check::LogMatching => 6,
        Check::LeaderCompleteness => 7,
    }
}

/// A fault's kind, its two numbers, and the groups of a partition as masks.
pub fn fault(fault: &Fault) -> (u64, u64, u64, Vec<u8>) {
    use kinds::fault as kind;
    let (kind, first, second) = match fault {
        Fault::Crash(id) => (kind::CRASH, id.0, 0),
        Fault::CrashDuringNextInput(id) => (kind::CRASH_DURING_NEXT_INPUT, id.0, 0),
        Fault::Restart(id) => (kind::RESTART, id.0, 0),
        Fault::CrashLeader { downtime } => (kind::CRASH_LEADER, nanos(*downtime), 0),
        Fault::Partition(_) => (kind::PARTITION, 0, 0),
        Fault::Block { from, to } => (kind::BLOCK, from.0, to.0),
        Fault::Unblock { from, to } => (kind::UNBLOCK, from.0, to.0),
        Fault::HealLinks => (kind::HEAL_LINKS, 0, 0),
        Fault::SetLoss(ppm) => (kind::SET_LOSS, u64::from(*ppm), 0),
        Fault::SetDuplication(ppm) => (kind::SET_DUPLICATION, u64::from(*ppm), 0),
        Fault::SetDelayFactor(factor) => (kind::SET_DELAY_FACTOR, *factor, 0),
        Fault::HealAll => (kind::HEAL_ALL, 0, 0),
    };
    let groups = match fault {
        Fault::Partition(groups) => groups.iter().map(|group| mask(group)).collect(),
        _ => Vec::new(),
    };
    (kind, first, second, groups)
}

/// The fault of this kind with these numbers and groups.
pub fn fault_of(kind: u64, first: u64, second: u64, groups: &[u8]) -> Fault {
    use kinds::fault as kinds;
    let ppm = first as u32;
    let (from, to) = (NodeId(first), NodeId(second));
    match kind {
        kinds::CRASH => Fault::Crash(from),
        kinds::CRASH_DURING_NEXT_INPUT => Fault::CrashDuringNextInput(from),
        kinds::RESTART => Fault::Restart(from),
        kinds::CRASH_LEADER => Fault::CrashLeader {
            downtime: Duration::from_nanos(first),
        },
        kinds::PARTITION => Fault::Partition(groups.iter().map(|mask| members(*mask)).collect()),
        kinds::BLOCK => Fault::Block { from, to },
        kinds::UNBLOCK => Fault::Unblock { from, to },
        kinds::HEAL_LINKS => Fault::HealLinks,
        kinds::SET_LOSS => Fault::SetLoss(ppm),
        kinds::SET_DUPLICATION => Fault::SetDuplication(ppm),
        kinds::SET_DELAY_FACTOR => Fault::SetDelayFactor(first),
        _ => Fault::HealAll,
    }
}

/// The reference's settings of a schedule.
pub fn chaos_of(chaos: &Chaos) -> ChaosConfig {
    ChaosConfig {
        start: Duration::from_nanos(chaos.start),
        end: Duration::from_nanos(chaos.end),
        mean_gap: Duration::from_nanos(chaos.mean_gap),
        max_duration: Duration::from_nanos(chaos.max_duration),
    }
}

/// A schedule's list: of each entry its time, its fault and the two numbers. A partition's first
/// number is its groups, one byte each.
pub fn schedule(schedule: &[(SimTime, Fault)]) -> Vec<[u64; 4]> {
    let entry = |(at, scheduled): &(SimTime, Fault)| {
        let (kind, first, second, groups) = fault(scheduled);
        let mut masks = [0; 8];
        masks[..groups.len()].copy_from_slice(&groups);
        let first = match kind {
            kinds::fault::PARTITION => u64::from_le_bytes(masks),
            _ => first,
        };
        [leaves::nanos(*at), kind, first, second]
    };
    schedule.iter().map(entry).collect()
}

/// A group of servers: bit i is server i + 1.
fn mask(group: &[NodeId]) -> u8 {
    group.iter().fold(0, |mask, id| mask | 1 << (id.0 - 1))
}

/// The servers of a group.
fn members(mask: u8) -> Vec<NodeId> {
    let bits = (0..8).filter(|bit| mask >> bit & 1 == 1);
    bits.map(|bit| NodeId(bit + 1)).collect()
}

/// The reference's settings.
pub fn settings_of(settings: &Settings) -> SimConfig {
    let time = Duration::from_nanos;
    let size = |number: u64| usize::try_from(number).expect("settings fit");
    SimConfig {
        servers: size(settings.servers),
        consensus: Config {
            heartbeat_interval: time(settings.heartbeat_interval),
            election_timeout_min: time(settings.election_timeout_min),
            election_timeout_max: time(settings.election_timeout_max),
            max_entries_per_message: size(settings.max_entries_per_message),
            max_entries_in_flight: size(settings.max_entries_in_flight),
        },
        one_way_delay: time(settings.one_way_delay),
        clients: size(settings.clients),
        command_bytes: size(settings.command_bytes),
        client_timeout: time(settings.client_timeout),
        client_backoff: time(settings.client_backoff),
        count_bytes: settings.count_bytes != 0,
        raft_checks: settings.raft_checks != 0,
        start_spread: time(settings.start_spread),
    }
}

/// The counts that a run is started with.
pub fn capacities(settings: &port::Settings, limits: &port::Limits) -> port::Capacities {
    port::Capacities {
        refusal: 0,
        servers: settings.servers,
        clients: settings.clients,
        log: limits.log,
        payload: limits.payload,
        message: limits.message,
        events: limits.events,
        writes: limits.writes,
        history: limits.history,
    }
}

#[cfg(test)]
mod tests {
    use super::*;

    #[test]
    fn a_generator_shows_its_state() {
        assert_eq!(generator(&Rng::new(17)), 17);
    }

    #[test]
    fn faults_go_there_and_back() {
        let (from, to) = (NodeId(3), NodeId(8));
        let groups = vec![vec![NodeId(1), NodeId(2)], vec![], vec![NodeId(2), to]];
        let downtime = Duration::from_nanos(5);
        let faults = [
            Fault::Crash(from),
            Fault::CrashDuringNextInput(from),
            Fault::Restart(to),
            Fault::CrashLeader { downtime },
            Fault::Partition(groups),
            Fault::Block { from, to },
            Fault::Unblock { from, to },
            Fault::HealLinks,
            Fault::SetLoss(u32::MAX),
            Fault::SetDuplication(7),
            Fault::SetDelayFactor(65_536),
            Fault::HealAll,
        ];
        for (number, expected) in faults.iter().enumerate() {
            let (kind, first, second, groups) = fault(expected);
            assert_eq!(kind, number as u64);
            assert_eq!(fault_of(kind, first, second, &groups), *expected);
        }
    }

    #[test]
    fn a_violation_is_the_numbers_of_its_text() {
        let reported = Violation {
            time: leaves::time(17),
            check: Check::LogMatching,
            detail: "servers 1 and 2: both hold term 3 at index 40 but differ at index 39".into(),
        };
        let numbers = violation(Some(&reported));
        assert_eq!((numbers.time, numbers.check, numbers.count), (17, 6, 5));
        assert_eq!(numbers.numbers, [1, 2, 3, 40, 39]);
    }
}
