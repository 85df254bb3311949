//! Document 01's questions 1 to 4 and 6 to 9, and 10 where one more of something is asked for.

use port::kinds::{self, refusal};
use port::{Chaos, Limits, Settings, area_length};

use crate::state::{Kind, Phase, State};

/// A question that a call asks, with the arguments that it asks it about.
pub(crate) enum Question<'a> {
    /// Is no input open?
    Closed,
    /// Is an input open and not sealed?
    Writing,
    /// Is an input open, synced and not refused?
    Sending,
    /// Is an input open and synced?
    Synced,
    /// Is the server in the cluster?
    Member(u64),
    /// Are the fault's targets and group members in the cluster? Kind, two numbers, groups.
    Targets(u64, u64, u64, &'a [u8]),
    /// Is the log index at least the first number, and at most L?
    Index(u64, u64),
    /// Is the first number at most the second?
    AtMost(u64, u64),
    /// Is it 0 or 1?
    Flag(u64),
    /// Is it a timer?
    Timer(u64),
    /// Is it a payload's kind, with bytes that belong to it?
    Payload(u64, &'a [u8]),
    /// Are the message's length and entries within limits?
    Message(usize, u64),
    /// Is the buffer at least as long as this limit?
    Buffer(usize, fn(&Limits) -> u64),
    /// May the open input be refused, where it is?
    MayRefuse(u64),
    /// Is there room for one more write?
    RoomForWrite,
    /// Is there room for one more event?
    RoomForEvent,
    /// Is there room for one more confirmation?
    RoomForConfirmation,
    /// Is it a fault, with its numbers and groups within limits? Kind, first number, groups.
    Fault(u64, u64, &'a [u8]),
}

impl Question<'_> {
    /// The refusal, where the answer is no.
    pub(crate) fn refuses(&self, state: &State) -> Option<u64> {
        let (yes, refusal) = match *self {
            Question::Closed => (state.phase() == Phase::Closed, refusal::PHASE),
            Question::Writing => (state.phase() == Phase::Writing, refusal::PHASE),
            Question::Sending => (
                state.phase() == Phase::Sending && !state.refused(),
                refusal::PHASE,
            ),
            Question::Synced => (state.phase() == Phase::Sending, refusal::PHASE),
            Question::Member(server) => (state.member(server), refusal::SERVER),
            Question::Targets(kind, first, second, groups) => (
                targets(kind, first, second)
                    .iter()
                    .all(|id| state.member(*id))
                    && groups_are_members(kind, groups, state),
                refusal::SERVER,
            ),
            Question::Index(low, index) => {
                let range = low..=state.limits.log;
                (range.contains(&index), refusal::INDEX)
            }
            Question::AtMost(number, bound) => (number <= bound, refusal::RANGE),
            Question::Flag(flag) => (flag <= 1, refusal::RANGE),
            Question::Timer(timer) => (timer <= kinds::timer::HEARTBEAT, refusal::RANGE),
            Question::Payload(kind, bytes) => {
                let fits = bytes.len() as u64 <= state.limits.payload;
                let belongs = kind == kinds::payload::COMMAND
                    || kind == kinds::payload::NOOP && bytes.is_empty();
                (fits && belongs, refusal::RANGE)
            }
            Question::Message(length, entries) => {
                let fits = length as u64 <= state.limits.message;
                (fits && entries < 1 << 32, refusal::RANGE)
            }
            Question::Buffer(length, need) => {
                (length as u64 >= need(&state.limits), refusal::RANGE)
            }
            Question::MayRefuse(refused) => (
                refused == 0
                    || matches!(
                        state.open_kind(),
                        Some(Kind::Proposal(_) | Kind::Confirmation { .. })
                    ),
                refusal::RANGE,
            ),
            Question::RoomForWrite => (state.waiting < state.limits.writes, refusal::ROOM),
            Question::RoomForEvent => (state.queued < state.limits.events, refusal::ROOM),
            Question::RoomForConfirmation => {
                let held = state.confirmations.len() as u64;
                (held < state.limits.history, refusal::ROOM)
            }
            Question::Fault(kind, first, groups) => {
                (within_limits(kind, first, groups), refusal::RANGE)
            }
        };
        (!yes).then_some(refusal)
    }
}

/// The servers that a fault's numbers name.
fn targets(kind: u64, first: u64, second: u64) -> Vec<u64> {
    use kinds::fault;
    match kind {
        fault::CRASH | fault::CRASH_DURING_NEXT_INPUT | fault::RESTART => vec![first],
        fault::BLOCK | fault::UNBLOCK => vec![first, second],
        _ => Vec::new(),
    }
}

fn groups_are_members(kind: u64, groups: &[u8], state: &State) -> bool {
    let past = |group: &u8| u32::from(*group) >> state.servers.len() != 0;
    kind != kinds::fault::PARTITION || !groups.iter().any(past)
}

fn within_limits(kind: u64, first: u64, groups: &[u8]) -> bool {
    use kinds::fault;
    match kind {
        fault::CRASH_LEADER => first <= 1 << 40,
        fault::SET_LOSS | fault::SET_DUPLICATION => first < 1 << 32,
        fault::SET_DELAY_FACTOR => first <= 65_536,
        fault::PARTITION => groups.len() <= 8,
        _ => kind <= fault::HEAL_ALL,
    }
}

/// The refusal of a start: questions 1 to 4.
pub(crate) fn refuses_start(settings: &Settings, limits: &Limits, area: usize) -> Option<u64> {
    if !(1..=8).contains(&settings.servers) {
        return Some(refusal::SERVERS);
    }
    let config = numbers::settings_of(settings).consensus;
    if config.validate().is_err() {
        return Some(refusal::CONFIG);
    }
    if !settings_within_limits(settings, limits) {
        return Some(refusal::SETTINGS);
    }
    let short = (area as u64) < area_length(settings, limits);
    short.then_some(refusal::AREA)
}

fn settings_within_limits(settings: &Settings, limits: &Limits) -> bool {
    let durations = [
        settings.heartbeat_interval,
        settings.election_timeout_min,
        settings.election_timeout_max,
        settings.one_way_delay,
        settings.client_timeout,
        settings.client_backoff,
        settings.start_spread,
    ];
    let tables = [limits.events, limits.writes, limits.history];
    durations.iter().all(|duration| *duration <= 1 << 40)
        && tables.iter().all(|places| (1..=65_536).contains(places))
        && settings.count_bytes.max(settings.raft_checks) <= 1
        && settings.clients <= 64
        && (1..=1_024).contains(&limits.log)
        && (12..=256).contains(&limits.payload)
        && limits.message <= 4_096
        && settings.command_bytes <= limits.payload
}

/// The refusal of a schedule: questions 1, 7 and 9, and 10 where its draws would never end.
///
/// Where two servers are asked for and all are one, the reference may never end either; that is
/// not told here.
pub(crate) fn refuses_schedule(servers: &[u8], chaos: &Chaos) -> Option<u64> {
    if !(1..=8).contains(&servers.len()) {
        return Some(refusal::SERVERS);
    }
    if !servers.iter().all(|id| (1..=8).contains(id)) {
        return Some(refusal::SERVER);
    }
    let times = chaos.start.max(chaos.end);
    let durations = chaos.mean_gap.max(chaos.max_duration);
    if times > 1 << 62 || durations > 1 << 40 {
        return Some(refusal::RANGE);
    }
    let endless = chaos.mean_gap == 0 && chaos.start < chaos.end;
    endless.then_some(refusal::ROOM)
}
