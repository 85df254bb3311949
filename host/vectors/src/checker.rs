//! Every check, on one checker.
//!
//! The reference keeps what its checker remembers to itself, but the checker can be asked: another
//! payload or leader is reported exactly where one is remembered. A question may change what it
//! asks, so each is put to a checker that has seen the same operations.

use std::collections::BTreeSet;

use consensus::{
    Entry, HardState, LogIndex, MemStorage, NodeId, Payload, Rng, Status, Storage, Term,
};
use port::kinds::{payload, refusal, role};
use sim::SimTime;
use sim::leaves::{self, Checker, TrackedStorage};

use crate::{File, padded};

/// Servers of a run.
const SERVERS: usize = 3;
/// Its log indexes, and so the payloads that are applied first.
const INDEXES: usize = 3;
/// Its rows of history: entries seen, leaders, replies.
const HISTORY: usize = 4;
/// Bytes of its clients' commands, and of the longest payload.
const COMMAND: usize = 12;
/// Words of a row.
const WIDTH: usize = 24 + 5 * HISTORY + 2 * HISTORY + 3 * INDEXES;

/// The kinds of operations.
mod kind {
    pub const BEGIN: u64 = 0;
    pub const PUT: u64 = 1;
    pub const WRITES: u64 = 2;
    pub const APPLY: u64 = 3;
    pub const STATUS: u64 = 4;
    pub const STOP: u64 = 5;
    pub const REPLY: u64 = 6;
    pub const DURABILITY: u64 = 7;
    pub const LOSE: u64 = 8;
    pub const TOTAL: u64 = 9;
    pub const NONE: u64 = 10;
    pub const TRUNCATE: u64 = 11;
    pub const HARD_STATE: u64 = 12;
    pub const LOG_MATCHING: u64 = 13;
}

/// An operation: its kind and its numbers. A payload is three: its mark, 1 for a noop, else 2 and
/// the length of the command, and the command's bytes.
type Operation = [u64; 8];

/// Operations on a checker of three servers, each with what it leaves.
///
/// The operation: 0, 1 where leader completeness is checked begins a run; 1, server, index, term,
/// payload puts an entry; 2, time, server checks that server's writes and syncs them; 3, time,
/// server, index, payload applies; 4, time, server, role, term is a status; 5, server stops it; 6,
/// index, client, sequence acknowledges a command; 7, time checks durability; 8, server loses its
/// writes; 9, total sets the total; 10 does nothing; 11, server, from truncates; 12, server, term
/// sets the hard state; 13, time checks log matching. Zeros up to eight words; then the place of a
/// violation that is told, the refusal, 0 or 10, the total, how many violations are kept, payloads
/// applied, entries seen, leaders; 1 where there is a violation at the place, its time, check,
/// count of numbers, five numbers; the entries seen (index, term, payload), the leaders (term,
/// server), the payloads applied.
pub(crate) fn checks() -> File {
    let mut rng = Rng::new(31);
    let mut operations = every_branch();
    for _ in 0..24 {
        operations.extend(drawn(&mut rng));
    }
    operations.extend(full_tables());
    operations.extend(last_totals());
    let mut rows = run(true, &operations);
    let mut operations = every_branch();
    for _ in 0..4 {
        operations.extend(drawn(&mut rng));
    }
    rows.extend(run(false, &operations));
    File::new("checks.bin", rows)
}

// ---- the operations

fn put(server: u64, index: u64, term: u64, payload: [u64; 3]) -> Operation {
    let [mark, low, high] = payload;
    [kind::PUT, server, index, term, mark, low, high, 0]
}

fn truncate(server: u64, from: u64) -> Operation {
    [kind::TRUNCATE, server, from, 0, 0, 0, 0, 0]
}

fn writes(time: u64, server: u64) -> Operation {
    [kind::WRITES, time, server, 0, 0, 0, 0, 0]
}

fn apply(time: u64, server: u64, index: u64, payload: [u64; 3]) -> Operation {
    let [mark, low, high] = payload;
    [kind::APPLY, time, server, index, mark, low, high, 0]
}

fn status(time: u64, server: u64, role: u64, term: u64) -> Operation {
    [kind::STATUS, time, server, role, term, 0, 0, 0]
}

fn reply(index: u64, client: u64, sequence: u64) -> Operation {
    [kind::REPLY, index, client, sequence, 0, 0, 0, 0]
}

/// An operation of one number or none.
fn plain(kind: u64, number: u64) -> Operation {
    [kind, number, 0, 0, 0, 0, 0, 0]
}

/// Every branch of every check, one after another.
fn every_branch() -> Vec<Operation> {
    [applied_and_led(), written_and_acknowledged()].concat()
}

/// A noop, two clients' commands, and a short command.
fn payloads() -> [[u64; 3]; 4] {
    let (one, two) = (client_command(0, 1), client_command(1, 2));
    [[1, 0, 0], words(&one), words(&two), [3, 0x77, 0]]
}

fn applied_and_led() -> Vec<Operation> {
    let [noop, one, _, short] = payloads();
    vec![
        // Durability without an acknowledged command.
        plain(kind::DURABILITY, 1),
        // Applied in order; once more; another payload; not the next index; index 0; both reports.
        apply(2, 1, 1, noop),
        apply(2, 2, 1, noop),
        apply(3, 3, 1, one),
        apply(4, 1, 3, one),
        apply(5, 1, 0, one),
        apply(6, 2, 1, short),
        apply(7, 2, 2, one),
        // A follower; a leader that lacks entries; the same again, no longer new.
        status(8, 1, role::FOLLOWER, 1),
        status(9, 1, role::LEADER, 1),
        status(10, 1, role::LEADER, 1),
        // A candidate leads nothing, and is new as a leader; so is a server that had stopped.
        status(11, 1, role::CANDIDATE, 1),
        status(12, 1, role::LEADER, 1),
        plain(kind::STOP, 1),
        status(13, 1, role::LEADER, 1),
        // Another leader of the term.
        status(14, 2, role::LEADER, 1),
    ]
}

fn written_and_acknowledged() -> Vec<Operation> {
    let [noop, one, two, short] = payloads();
    vec![
        // Writes: new entries, one index twice, and another payload under a known index and term.
        put(3, 1, 1, noop),
        put(3, 2, 1, short),
        put(3, 2, 1, one),
        writes(15, 3),
        put(1, 2, 1, one),
        put(1, 1, 1, two),
        writes(16, 1),
        // An index that holds no entry any more; no index.
        put(2, 3, 1, short),
        truncate(2, 2),
        [kind::HARD_STATE, 2, 6, 0, 0, 0, 0, 0],
        writes(17, 2),
        // Logs that differ before an entry that both hold.
        plain(kind::LOG_MATCHING, 17),
        // Writes that are lost; none.
        put(2, 1, 5, two),
        plain(kind::LOSE, 2),
        writes(17, 2),
        // A leader that has every entry that was applied.
        status(18, 3, role::LEADER, 2),
        // Acknowledged where it was applied; not applied; at index 0; then every server catches up.
        reply(2, 0, 1),
        plain(kind::DURABILITY, 19),
        reply(3, 1, 2),
        reply(0, 1, 7),
        plain(kind::DURABILITY, 20),
        apply(21, 1, 1, noop),
        apply(22, 1, 2, one),
        apply(23, 1, 3, two),
        plain(kind::DURABILITY, 24),
    ]
}

/// Some operations of one kind.
fn drawn(rng: &mut Rng) -> Vec<Operation> {
    let time = rng.next_u64() >> rng.below(64);
    let server = 1 + rng.below(SERVERS as u64);
    let index = 1 + rng.below(INDEXES as u64);
    match rng.below(9) {
        0 | 1 => {
            let entries = 1 + rng.below(2);
            let puts = (0..entries).map(|_| {
                let index = 1 + rng.below(INDEXES as u64);
                put(server, index, 1 + rng.below(2), some_payload(rng))
            });
            let mut operations: Vec<Operation> = puts.collect();
            if rng.below(3) == 0 {
                operations.push(truncate(server, index));
            }
            operations.extend([writes(time, server), plain(kind::LOSE, server)]);
            operations
        }
        2 | 3 => {
            let index = rng.below(INDEXES as u64 + 1);
            vec![apply(time, server, index, some_payload(rng))]
        }
        4 | 5 => vec![status(time, server, role::LEADER, index + rng.below(4))],
        6 => vec![status(time, server, rng.below(3), index)],
        7 => vec![plain(kind::LOG_MATCHING, time)],
        _ => vec![plain(kind::STOP, server)],
    }
}

/// More leaders and entries than there is room for; then logs that differ, with writes that wait.
fn full_tables() -> Vec<Operation> {
    let [noop, _, _, short] = payloads();
    let leaders = (3..9).map(|term| status(term, 1, role::LEADER, term));
    let mut operations: Vec<Operation> = leaders.collect();
    for term in 3..9 {
        operations.extend([put(3, 1, term, short), writes(term, 3)]);
        operations.push(plain(kind::LOSE, 3));
    }
    operations.extend([put(1, 1, 9, noop), put(1, 2, 9, noop)]);
    operations.extend([put(2, 1, 9, short), put(2, 2, 9, noop)]);
    operations
}

/// The total at the end of 64 bits: two reports, one, and none.
fn last_totals() -> Vec<Operation> {
    let (other, noop) = ([14, 9, 9], [1, 0, 0]);
    vec![
        plain(kind::TOTAL, u64::MAX - 1),
        apply(1, 1, 0, noop),
        plain(kind::TOTAL, u64::MAX - 1),
        apply(2, 2, 3, noop),
        apply(3, 2, 1, other),
        plain(kind::DURABILITY, 4),
        plain(kind::TOTAL, u64::MAX),
        apply(5, 2, 2, other),
        status(6, 2, role::LEADER, 1),
        status(7, 2, role::LEADER, u64::MAX),
        status(8, 2, role::FOLLOWER, 1),
        plain(kind::LOG_MATCHING, 9),
        plain(kind::LOSE, 2),
        plain(kind::LOG_MATCHING, 10),
        put(2, 1, 1, other),
        writes(11, 2),
        plain(kind::LOSE, 2),
        plain(kind::DURABILITY, 12),
    ]
}

fn some_payload(rng: &mut Rng) -> [u64; 3] {
    match rng.below(5) {
        0 => [1, 0, 0],
        1 => [2, 0, 0],
        2 => words(&client_command(0, 1)),
        3 => words(&client_command(1, 2)),
        _ => [14, rng.next_u64(), rng.next_u64() >> 32],
    }
}

fn client_command(client: u32, sequence: u64) -> Payload {
    Payload::Command(leaves::encode(client, sequence, COMMAND))
}

/// A payload as three words.
fn words(held: &Payload) -> [u64; 3] {
    let (kind, bytes) = numbers::payload(held);
    let [low, high] = padded::<2>(&bytes);
    [1 + kind + bytes.len() as u64, low, high]
}

fn payload_of([mark, low, high]: [u64; 3]) -> Payload {
    let bytes = [low.to_le_bytes(), high.to_le_bytes()].concat();
    match mark {
        1 => numbers::payload_of(payload::NOOP, &[]),
        _ => numbers::payload_of(payload::COMMAND, &bytes[..mark as usize - 2]),
    }
}

// ---- the reference

/// A checker after some operations, and what it is told of.
struct Checked {
    checker: Checker,
    disks: [TrackedStorage; SERVERS],
    next_apply: [u64; SERVERS],
    acknowledged: Vec<(LogIndex, Payload)>,
    /// How far the total was set above the checker's own.
    above: u64,
}

impl Checked {
    fn after(raft_checks: bool, operations: &[Operation]) -> Self {
        let mut checked = Checked {
            checker: Checker::new(SERVERS, raft_checks),
            disks: Default::default(),
            next_apply: [1; SERVERS],
            acknowledged: Vec::new(),
            above: 0,
        };
        for operation in operations {
            checked.operate(operation);
        }
        checked
    }

    fn total(&self) -> u64 {
        self.checker.total() + self.above
    }

    fn kept(&self) -> usize {
        self.checker.violations().len()
    }

    fn operate(&mut self, operation: &Operation) {
        let [kind, first, second, third, fourth, fifth, sixth, _] = *operation;
        let (time, server) = (leaves::time(first), NodeId(second));
        match kind {
            kind::PUT => {
                let entry = entry(third, [fourth, fifth, sixth]);
                self.disks[slot(first)].put(LogIndex(second), entry);
            }
            kind::WRITES => self.check_writes(time, server),
            kind::APPLY => {
                let payload = payload_of([fourth, fifth, sixth]);
                let next = &mut self.next_apply[slot(second)];
                let index = LogIndex(third);
                self.checker.on_apply(time, server, index, &payload, next);
            }
            kind::STATUS => {
                let (slot, status) = (slot(second), status_of(third, fourth));
                let log = self.disks[slot].mem();
                self.checker.on_status(time, slot, server, status, log);
            }
            kind::STOP => self.checker.on_stop(slot(first)),
            kind::REPLY => {
                let command = client_command(second as u32, third);
                self.acknowledged.push((LogIndex(first), command));
            }
            kind::DURABILITY => self.check_durability(time),
            kind::LOSE => self.disks[slot(first)].crash(),
            kind::TRUNCATE => self.disks[slot(first)].truncate(LogIndex(second)),
            kind::HARD_STATE => self.disks[slot(first)].set_hard_state(state_of(second)),
            kind::LOG_MATCHING => self.check_log_matching(time),
            kind::TOTAL => self.above = first - self.checker.total(),
            _ => {}
        }
    }

    fn check_writes(&mut self, time: SimTime, server: NodeId) {
        let disk = &mut self.disks[slot(server.0)];
        for index in disk.take_written() {
            self.checker.on_write(time, server, index, disk.mem());
        }
        disk.sync();
    }

    fn check_log_matching(&mut self, time: SimTime) {
        let logs = self.disks.iter().map(TrackedStorage::mem);
        let logs: Vec<_> = (1..).map(NodeId).zip(logs).collect();
        self.checker.check_log_matching(time, &logs);
    }

    fn check_durability(&mut self, time: SimTime) {
        let applied = self.next_apply.map(|next| next - 1);
        let applied: Vec<_> = (1..).map(NodeId).zip(applied).collect();
        let acknowledged = &self.acknowledged;
        self.checker.check_durability(time, acknowledged, &applied);
    }
}

fn state_of(term: u64) -> HardState {
    HardState {
        term: Term(term),
        voted_for: None,
    }
}

fn entry(term: u64, payload: [u64; 3]) -> Entry {
    Entry {
        term: Term(term),
        payload: payload_of(payload),
    }
}

fn slot(server: u64) -> usize {
    server as usize - 1
}

fn status_of(role: u64, term: u64) -> Status {
    Status {
        role: numbers::role_of(role),
        term: Term(term),
        leader: None,
        commit_index: LogIndex::ZERO,
    }
}

// ---- what the checker remembers

/// The tables of a checker, in the order of their keys.
struct Tables {
    seen: Vec<[u64; 5]>,
    leaders: Vec<[u64; 2]>,
    applied: Vec<[u64; 3]>,
}

/// The one of some values that is not reported where another is; none where no value is.
fn remembered<T: Copy>(
    operations: &[Operation],
    values: &[T],
    ask: impl Fn(&mut Checker, T),
) -> Option<T> {
    let reported = |value: &T| {
        let mut checker = Checked::after(false, operations).checker;
        let before = checker.total();
        ask(&mut checker, *value);
        checker.total() != before
    };
    let (reported, silent): (Vec<T>, Vec<T>) = values.iter().partition(|value| reported(value));
    match (&reported[..], &silent[..]) {
        ([], _) | (_, []) => None,
        (_, [value]) => Some(*value),
        _ => panic!("two values are remembered"),
    }
}

/// The first payload seen under an index and a term.
fn seen(
    operations: &[Operation],
    payloads: &[[u64; 3]],
    index: u64,
    term: u64,
) -> Option<[u64; 5]> {
    let [mark, low, high] = remembered(operations, payloads, |checker, held| {
        let mut log = MemStorage::new();
        log.put(LogIndex(index), entry(term, held));
        checker.on_write(SimTime::ZERO, NodeId(1), LogIndex(index), &log);
    })?;
    Some([index, term, mark, low, high])
}

/// The first leader of a term.
fn leader(operations: &[Operation], term: u64) -> Option<[u64; 2]> {
    let server = remembered(operations, &[1, 2, 3], |checker, server| {
        let (status, log) = (status_of(role::LEADER, term), MemStorage::new());
        checker.on_status(SimTime::ZERO, 0, NodeId(server), status, &log);
    })?;
    Some([term, server])
}

/// The first payload applied at an index.
fn applied(operations: &[Operation], payloads: &[[u64; 3]], index: u64) -> Option<[u64; 3]> {
    remembered(operations, payloads, |checker, held| {
        let acknowledged = [(LogIndex(index), payload_of(held))];
        checker.check_durability(SimTime::ZERO, &acknowledged, &[]);
    })
}

impl Tables {
    fn after(operations: &[Operation]) -> Self {
        let of = |kind: u64| {
            operations
                .iter()
                .filter(move |operation| operation[0] == kind)
        };
        let payload = |operation: &Operation| [operation[4], operation[5], operation[6]];
        let mut payloads: BTreeSet<[u64; 3]> = BTreeSet::from([[1, 0, 0], [3, 1, 0], [3, 2, 0]]);
        payloads.extend(of(kind::PUT).chain(of(kind::APPLY)).map(payload));
        let payloads: Vec<[u64; 3]> = payloads.into_iter().collect();
        let keys: BTreeSet<_> = of(kind::PUT).map(|put| (put[2], put[3])).collect();
        let terms: BTreeSet<_> = of(kind::STATUS).map(|status| status[4]).collect();
        let keys = keys.into_iter();
        let indexes = 1..=INDEXES as u64;
        Tables {
            seen: keys
                .filter_map(|(index, term)| seen(operations, &payloads, index, term))
                .collect(),
            leaders: terms
                .into_iter()
                .filter_map(|term| leader(operations, term))
                .collect(),
            applied: indexes
                .map_while(|index| applied(operations, &payloads, index))
                .collect(),
        }
    }

    /// Rows of each table.
    fn counts(&self) -> [u64; 3] {
        [self.applied.len(), self.seen.len(), self.leaders.len()].map(|rows| rows as u64)
    }

    /// The words of the tables, zeros behind the last rows.
    fn words(&self) -> Vec<u64> {
        let mut words = self.seen.concat();
        words.resize(5 * HISTORY, 0);
        words.extend(self.leaders.concat());
        words.resize(7 * HISTORY, 0);
        words.extend(self.applied.concat());
        words.resize(7 * HISTORY + 3 * INDEXES, 0);
        words
    }
}

// ---- the rows

fn run(raft_checks: bool, operations: &[Operation]) -> Vec<[u64; WIDTH]> {
    let begin = plain(kind::BEGIN, raft_checks.into());
    let mut done = Vec::new();
    let mut rows = vec![row(raft_checks, &done, begin, 0, 0)];
    for operation in operations {
        let before = Checked::after(raft_checks, &done);
        let tried: Vec<Operation> = done.iter().chain([operation]).copied().collect();
        let after = Checked::after(raft_checks, &tried);
        let answer = refusal_of(&before, &after, &Tables::after(&tried));
        let mut kept = before.kept()..after.kept();
        if answer == refusal::NONE {
            done = tried;
        } else {
            kept.end = kept.start;
        }
        rows.push(row(raft_checks, &done, *operation, kept.start, answer));
        for place in kept.skip(1) {
            rows.push(row(raft_checks, &done, plain(kind::NONE, 0), place, 0));
        }
    }
    for place in 0..=Checked::after(raft_checks, &done).kept() {
        rows.push(row(raft_checks, &done, plain(kind::NONE, 0), place, 0));
    }
    rows
}

/// Question 10 of what the operation gives: do the tables fit, and the total?
fn refusal_of(before: &Checked, after: &Checked, tables: &Tables) -> u64 {
    let rows = tables.seen.len().max(tables.leaders.len());
    let reports = after.checker.total() - before.checker.total();
    let fits = rows <= HISTORY && before.total().checked_add(reports).is_some();
    if fits { refusal::NONE } else { refusal::ROOM }
}

fn row(
    raft_checks: bool,
    done: &[Operation],
    operation: Operation,
    place: usize,
    refusal: u64,
) -> [u64; WIDTH] {
    let (checked, tables) = (Checked::after(raft_checks, done), Tables::after(done));
    let violation = numbers::violation(checked.checker.violations().get(place));
    let mut told = operation.to_vec();
    told.extend([
        place as u64,
        refusal,
        checked.total(),
        checked.kept() as u64,
    ]);
    told.extend(tables.counts());
    told.extend([
        violation.present,
        violation.time,
        violation.check,
        violation.count,
    ]);
    told.extend(violation.numbers);
    told.extend(tables.words());
    told.try_into().expect("as many words as a row has")
}

#[cfg(test)]
mod tests {
    use super::*;

    #[test]
    fn every_check_is_reported() {
        let rows = checks().rows;
        // Liveness is never reported.
        for check in [0, 1, 2, 3, 4, 6, 7] {
            let found = rows.iter().any(|row| row[15] == 1 && row[17] == check);
            assert!(found, "no violation of check {check}");
        }
    }

    #[test]
    fn every_table_is_full_and_more_than_is_kept_is_reported() {
        let rows = checks().rows;
        for refused in [
            kind::WRITES,
            kind::APPLY,
            kind::STATUS,
            kind::DURABILITY,
            kind::LOG_MATCHING,
        ] {
            let found = rows
                .iter()
                .any(|row| row[0] == refused && row[9] == refusal::ROOM);
            assert!(found, "operation {refused} is never refused");
        }
        assert!(rows.iter().any(|row| row[10] > 32 && row[11] == 32));
        for (place, most) in [(12, INDEXES), (13, HISTORY), (14, HISTORY)] {
            assert!(rows.iter().any(|row| row[place] == most as u64), "{place}");
        }
    }
}
