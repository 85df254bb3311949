//! A run as a module of antt: the exchanges on which the definitions are computed (`crates/runs`).

use std::fmt::Display;

use port::{Limits, Settings, kinds};

use crate::{Call, Exchange, Numbers, Trace};

/// The names that exchanges are written with.
const NAMES: &str = "\
use Rattle.std.specs.Prelude.{List, [], ◌∷◌}
use Rattle.model.specs.Outcome.{hard_state, put, truncate, send, set_timer, cancel_timer, apply, confirmed, lost, read_status, read_hard_state, read_log, read_entry, read_leader, read_applied, read_applied_entry, read_metrics, read_sent_by, read_reply, read_confirmation, read_violation, read_run, read_settings, start, step, propose, fire_timer, confirm_leadership, schedule, write, seal, output, end, check_log_matching, check_durability, read}
use Rattle.runs.specs.Trace.{Exchange, exchange}
";

/// The declaration of a list of exchanges.
fn declared(name: &str, about: &str) -> String {
    format!("\n-- {about}\nunfoldable pub {name} : List Exchange\n{name} =\n")
}

impl Trace {
    /// The first `most` exchanges as a module that begins with the line `about`.
    pub fn to_antt(&self, about: &str, most: usize) -> String {
        let exchanges = self.to_list(most);
        let declared = declared("exchanges", "The exchanges in order.");
        format!("-- {about}\n{NAMES}{declared}    {exchanges}[]\n")
    }

    /// The first `most` exchanges, each with the sign behind it.
    ///
    /// Left out are calls that the definitions do not have: a schedule, which takes no area, and
    /// a start that is refused for its area's length.
    fn to_list(&self, most: usize) -> String {
        let mut buffer = 0;
        let mut lines = Vec::new();
        for Exchange { call, answer } in &self.exchanges {
            let refusal = answer.numbers.refusal();
            if let (Call::Start { limits, .. }, 0) = (call, refusal) {
                buffer = limits.message.max(limits.payload);
            }
            if !is_defined(call, refusal) {
                continue;
            }
            let call = text(call, buffer);
            let numbers = list(numbers_of(&answer.numbers));
            let bytes = bytes(&answer.bytes);
            lines.push(format!("exchange ({call}) {numbers} {bytes}\n    ∷ "));
        }
        lines.truncate(most);
        lines.concat()
    }
}

/// Several runs as a module that begins with the line `about`, each under its name.
pub fn runs_to_antt<'r>(about: &str, runs: impl IntoIterator<Item = (&'r str, Trace)>) -> String {
    let mut module = format!("-- {about}\n{NAMES}");
    for (name, trace) in runs {
        let exchanges = trace.to_list(usize::MAX);
        let count = trace.exchanges.len();
        let declared = declared(name, &format!("{count} exchanges in order."));
        module += &format!("{declared}    {exchanges}[]\n");
    }
    module
}

/// The numbers of an answer as the definitions have them: of a refused call its number alone.
fn numbers_of(numbers: &Numbers) -> Vec<u64> {
    let mut words = numbers.to_words();
    if numbers.refusal() != 0 {
        words.truncate(1);
    }
    words
}

/// Whether the definitions have the call, and ask what refused it.
fn is_defined(call: &Call, refusal: u64) -> bool {
    !matches!(call, Call::ChaosSchedule { .. }) && refusal != kinds::refusal::AREA
}

fn list(numbers: impl IntoIterator<Item = u64>) -> String {
    let each: String = numbers.into_iter().map(|n| format!("{n} ∷ ")).collect();
    if each.is_empty() {
        "[]".to_string()
    } else {
        format!("({each}[])")
    }
}

fn bytes(bytes: &[u8]) -> String {
    list(bytes.iter().copied().map(u64::from))
}

/// A number of its own kind: a term, an index, a time.
fn kind(number: u64) -> String {
    record([("0", number)])
}

/// The same as an argument.
fn own(number: u64) -> String {
    format!("({})", kind(number))
}

/// The call. `buffer` is the length of the lent buffer.
fn text(call: &Call, buffer: u64) -> String {
    match call {
        Call::Start {
            settings,
            limits,
            seed,
        } => {
            let (settings, limits) = (settings_text(settings), limits_text(limits));
            format!("start ({settings}) ({limits}) {seed}")
        }
        Call::Step { deadline } => format!("step {} {buffer}", own(*deadline)),
        Call::Propose { server } => format!("propose {server}"),
        Call::FireTimer { server, timer } => format!("fire_timer {server} {timer}"),
        Call::ConfirmLeadership { server, request } => {
            format!("confirm_leadership {server} {}", own(*request))
        }
        Call::Schedule {
            at,
            fault,
            first,
            second,
            groups,
        } => {
            let (at, groups) = (own(*at), bytes(groups));
            format!("schedule {at} {fault} {first} {second} {groups}")
        }
        Call::WriteHardState { term, voted, vote } => {
            format!("write (hard_state {} {voted} {vote})", own(*term))
        }
        Call::WritePut {
            index,
            term,
            kind,
            payload,
        } => {
            let (index, term, payload) = (own(*index), own(*term), bytes(payload));
            format!("write (put {index} {term} {kind} {payload})")
        }
        Call::WriteTruncate { from } => format!("write (truncate {})", own(*from)),
        Call::Seal {
            refused,
            hinted,
            leader,
        } => format!("seal {refused} {hinted} {leader}"),
        Call::OutputSend {
            to,
            message,
            entries,
        } => format!("output (send {to} {} {entries})", bytes(message)),
        Call::OutputSetTimer { timer, after } => {
            format!("output (set_timer {timer} {})", own(*after))
        }
        Call::OutputCancelTimer { timer } => format!("output (cancel_timer {timer})"),
        Call::OutputApply {
            index,
            kind,
            payload,
        } => format!("output (apply {} {kind} {})", own(*index), bytes(payload)),
        Call::OutputConfirmed {
            request,
            read_index,
        } => {
            let (request, read_index) = (own(*request), own(*read_index));
            format!("output (confirmed {request} {read_index})")
        }
        Call::OutputLost { request } => format!("output (lost {})", own(*request)),
        Call::End {
            role,
            term,
            hinted,
            leader,
            commit,
        } => {
            let (term, commit) = (own(*term), own(*commit));
            format!("end {role} {term} {hinted} {leader} {commit}")
        }
        Call::CheckLogMatching {} => "check_log_matching".to_string(),
        Call::CheckDurability {} => "check_durability".to_string(),
        Call::ReadStatus { server } => format!("read (read_status {server})"),
        Call::ReadHardState { server } => format!("read (read_hard_state {server})"),
        Call::ReadLog { server } => format!("read (read_log {server})"),
        Call::ReadEntry { server, index } => {
            format!("read (read_entry {server} {index} {buffer})")
        }
        Call::ReadLeader {} => "read read_leader".to_string(),
        Call::ReadApplied { server } => format!("read (read_applied {server})"),
        Call::ReadAppliedEntry { index } => format!("read (read_applied_entry {index} {buffer})"),
        Call::ReadMetrics {} => "read read_metrics".to_string(),
        Call::ReadSentBy { server } => format!("read (read_sent_by {server})"),
        Call::ReadReply { place } => format!("read (read_reply {place})"),
        Call::ReadConfirmation { place } => format!("read (read_confirmation {place})"),
        Call::ReadViolation { place } => format!("read (read_violation {place})"),
        Call::ReadRun {} => "read read_run".to_string(),
        Call::ReadSettings {} => "read read_settings".to_string(),
        Call::ChaosSchedule { .. } => unreachable!("a schedule is left out"),
    }
}

/// A record of these fields.
fn record<const N: usize>(fields: [(&str, impl Display); N]) -> String {
    let fields = fields.map(|(name, value)| format!("{name} = {value}"));
    format!("record {{ {} }}", fields.join("; "))
}

fn settings_text(settings: &Settings) -> String {
    let number = |number: u64| number.to_string();
    let consensus = record([
        ("heartbeat_interval", kind(settings.heartbeat_interval)),
        ("election_timeout_min", kind(settings.election_timeout_min)),
        ("election_timeout_max", kind(settings.election_timeout_max)),
        (
            "max_entries_per_message",
            number(settings.max_entries_per_message),
        ),
        (
            "max_entries_in_flight",
            number(settings.max_entries_in_flight),
        ),
    ]);
    record([
        ("servers", number(settings.servers)),
        ("consensus", consensus),
        ("one_way_delay", kind(settings.one_way_delay)),
        ("clients", number(settings.clients)),
        ("command_bytes", number(settings.command_bytes)),
        ("client_timeout", kind(settings.client_timeout)),
        ("client_backoff", kind(settings.client_backoff)),
        ("count_bytes", number(settings.count_bytes)),
        ("raft_checks", number(settings.raft_checks)),
        ("start_spread", kind(settings.start_spread)),
    ])
}

fn limits_text(limits: &Limits) -> String {
    record([
        ("log_indexes", limits.log),
        ("payload", limits.payload),
        ("message", limits.message),
        ("events", limits.events),
        ("writes", limits.writes),
        ("history", limits.history),
    ])
}
