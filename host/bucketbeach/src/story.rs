//! `bucketbeach run`: one run as a story.

use judge::{Happening, Opened, Raised, Verdict, Write};
use node::{Entry, HardState, LogIndex, NodeId, Payload, Role, Timer};

use crate::nodes::{Choice, Listen};
use crate::options::RunOptions;
use crate::print;
use crate::record::Broken;
use crate::words::{self, count, duration, exact};

/// Tells a run. Returns the exit status.
///
/// # Errors
///
/// A line about wrong usage.
pub fn run(choice: &Choice, options: &RunOptions) -> Result<u8, String> {
    let node = choice.node(options.plan.node.as_deref())?;
    let plan = options.plan.plan();
    let servers = plan.settings.servers;
    if let Some(server) = options.server.filter(|server| *server > servers) {
        return Err(format!("--server {server}: the servers are 1 to {servers}"));
    }
    if let (Some(from), Some(until)) = (options.from, options.until)
        && from > until
    {
        return Err("--from is after --until: nothing would be told".to_owned());
    }
    let mut story = Story::of(options);
    let told = node.told(&plan, options.seed, &mut story);
    let verdict = told.map_err(|refused| refused.to_string())?;
    print(&story.lines.join(""));
    print(&ending(&verdict));
    Ok(status(&verdict))
}

fn status(verdict: &Verdict) -> u8 {
    match (&verdict.fault, verdict.reported) {
        (Some(_), _) => 2,
        (None, 0) => 0,
        (None, _) => 1,
    }
}

/// The last lines of a story.
fn ending(verdict: &Verdict) -> String {
    let events = count(verdict.events, "event");
    let syncs = count(verdict.metrics.fsyncs, "sync");
    let mut text = String::new();
    for raised in &verdict.raised {
        text += &format!("made again: {raised}\n");
    }
    text += &format!("seed {}: {events}, {syncs}, ", verdict.seed);
    text += &match (&verdict.fault, verdict.violations.first()) {
        (Some(fault), _) => format!("the node's fault: {fault}\n"),
        (None, None) => "no violation\n".to_owned(),
        (None, Some(first)) => {
            let (violations, broken) = (count(verdict.reported, "violation"), Broken::from(first));
            format!(
                "{violations}, first {} at {}\n",
                broken.name,
                exact(broken.time)
            )
        }
    };
    text
}

/// A story that grows.
struct Story {
    from: u64,
    until: u64,
    server: Option<u64>,
    /// Of the line before: its time and server.
    last: Option<(u64, u64)>,
    lines: Vec<String>,
}

impl Story {
    fn of(options: &RunOptions) -> Self {
        Story {
            from: options.from.unwrap_or(0),
            until: options.until.unwrap_or(u64::MAX),
            server: options.server,
            last: None,
            lines: Vec::new(),
        }
    }

    /// Whether something is to be told.
    fn tells(&self, time: u64, server: u64, what: &Happening<'_>) -> bool {
        let of_all = matches!(what, Happening::Violation(_) | Happening::Fault(_));
        let of_it = self.server.is_none_or(|asked| asked == server);
        (self.from..=self.until).contains(&time) && (of_all || of_it)
    }
}

impl Listen for Story {
    fn happened(&mut self, time: u64, server: u64, what: &Happening<'_>) {
        if !self.tells(time, server, what) {
            return;
        }
        let opens = matches!(what, Happening::Opened(_));
        let same = self.last == Some((time, server)) && !opens;
        let head = if same { String::new() } else { exact(time) };
        let who = match server {
            _ if same => String::new(),
            0 => "the plan".to_owned(),
            _ => format!("server {server}"),
        };
        self.last = Some((time, server));
        let indent = if opens || server == 0 { "" } else { "  " };
        let text = sentence(what);
        self.lines
            .push(format!("{head:>12}  {who:<8}  {indent}{text}\n"));
    }

    fn again(&mut self, _raised: &Raised) {
        self.lines.clear();
        self.last = None;
    }
}

/// What happened, without when and where.
fn sentence(what: &Happening<'_>) -> String {
    match what {
        Happening::Opened(opened) => opening(opened),
        Happening::Wrote(write) => wrote(write),
        Happening::Synced { writes } => format!("syncs {}", count(*writes as u64, "write")),
        Happening::NothingToSync => "has nothing to sync".to_owned(),
        Happening::Cut { writes } => {
            let writes = count(*writes as u64, "write");
            format!("CUT: crashes before the sync, {writes} gone, nothing sent")
        }
        Happening::Refused { leader: None } => {
            "refuses: it does not lead, and knows no leader".to_owned()
        }
        Happening::Refused {
            leader: Some(NodeId(id)),
        } => format!("refuses: server {id} leads"),
        Happening::Sent {
            to,
            kind,
            bytes,
            entries,
        } => format!("sends {kind} to {}{}", to.0, size(*bytes, *entries)),
        Happening::TimerSet { timer, after } => {
            let after = duration(u64::try_from(after.as_nanos()).unwrap_or(u64::MAX));
            format!("sets its {} timer to {after}", timer_name(*timer))
        }
        Happening::TimerCancelled { timer } => format!("cancels its {} timer", timer_name(*timer)),
        Happening::Applied { index, payload } => {
            format!("applies index {}: {}", index.0, content(payload))
        }
        Happening::Confirmed {
            request,
            read_index: Some(LogIndex(index)),
        } => format!(
            "confirms for request {} that it leads, read index {index}",
            request.0
        ),
        Happening::Confirmed { request, .. } => {
            format!("tells request {} that it leads no more", request.0)
        }
        Happening::Status { role, term } => format!("is {} of term {}", role_name(*role), term.0),
        Happening::Stopped => "is down".to_owned(),
        Happening::Fault(fault) => words::fault(fault),
        Happening::Violation(violation) => {
            let broken = Broken::from(*violation);
            format!("VIOLATION of {}: {}", broken.name, broken.text)
        }
    }
}

fn opening(opened: &Opened) -> String {
    match opened {
        Opened::Start { incarnation: 0 } => "starts for the first time".to_owned(),
        Opened::Start { incarnation } => format!("starts again, the {} time", nth(incarnation + 1)),
        Opened::Message {
            from,
            kind,
            bytes,
            entries,
        } => format!("gets {kind} from {}{}", from.0, size(*bytes, *entries)),
        Opened::Timer { timer } => format!("its {} timer fires", timer_name(*timer)),
        Opened::Proposal { client, sequence } => {
            format!("is asked by {} for command {sequence}", who(*client))
        }
        Opened::Confirmation { request } => {
            format!("is asked by request {} whether it leads", request.0)
        }
    }
}

fn wrote(write: &Write) -> String {
    match write {
        Write::HardState(HardState { term, voted_for }) => {
            let vote =
                voted_for.map_or("no vote".to_owned(), |id| format!("its vote for {}", id.0));
            format!("writes term {} and {vote}", term.0)
        }
        Write::Put(index, Entry { term, payload }) => {
            let (index, term) = (index.0, term.0);
            format!("writes index {index}, term {term}: {}", content(payload))
        }
        Write::Truncate(from) => format!("truncates from index {} on", from.0),
    }
}

/// Who proposes.
fn who(client: u64) -> String {
    if client == u64::from(u32::MAX) {
        "the plan".to_owned()
    } else {
        format!("client {client}")
    }
}

/// An entry's payload; a client's command by its key.
fn content(payload: &Payload) -> String {
    let Payload::Command(command) = payload else {
        return "a noop".to_owned();
    };
    match command.0.first_chunk::<12>() {
        Some([a, b, c, d, sequence @ ..]) => {
            let client = u32::from_le_bytes([*a, *b, *c, *d]);
            let sequence = u64::from_le_bytes(*sequence);
            format!("command {sequence} of {}", who(u64::from(client)))
        }
        None => count(command.0.len() as u64, "byte"),
    }
}

/// A message's size.
fn size(bytes: u64, entries: u64) -> String {
    let entries = match entries {
        0 => String::new(),
        1 => ", 1 entry".to_owned(),
        more => format!(", {more} entries"),
    };
    format!(" ({}{entries})", count(bytes, "byte"))
}

fn timer_name(timer: Timer) -> &'static str {
    match timer {
        Timer::Election => "election",
        Timer::Heartbeat => "heartbeat",
    }
}

/// A role's name.
pub fn role_name(role: Role) -> &'static str {
    match role {
        Role::Follower => "follower",
        Role::Candidate => "candidate",
        Role::Leader => "leader",
    }
}

/// 2nd, 3rd, 11th.
fn nth(number: u64) -> String {
    let end = match (number % 10, number % 100) {
        (_, 11..=13) => "th",
        (1, _) => "st",
        (2, _) => "nd",
        (3, _) => "rd",
        _ => "th",
    };
    format!("{number}{end}")
}

#[cfg(test)]
mod tests {
    use super::*;
    use node::Command;

    #[test]
    fn ordinals() {
        let told: Vec<String> = [1, 2, 3, 4, 11, 22].map(nth).to_vec();
        assert_eq!(told, ["1st", "2nd", "3rd", "4th", "11th", "22nd"]);
    }

    #[test]
    fn a_command_by_its_key() {
        let mut bytes = vec![2, 0, 0, 0, 7, 0, 0, 0, 0, 0, 0, 0, 0, 0, 0, 0];
        let told = content(&Payload::Command(Command(bytes.clone())));
        assert_eq!(told, "command 7 of client 2");
        bytes.truncate(5);
        assert_eq!(content(&Payload::Command(Command(bytes))), "5 bytes");
    }
}
