//! A run in time: what each server was, and what the network was like.

use std::collections::BTreeSet;

use judge::{Fault, Happening, Opened, Raised};
use node::Role;
use port::kinds::fault as of;

use crate::nodes::Listen;
use crate::record::Broken;
use crate::story::role_name;
use crate::words;

/// What a server is.
#[derive(Debug, Clone, Copy, PartialEq, Eq)]
pub enum State {
    /// Stopped, or not started yet.
    Down,
    /// Runs, in this role.
    Runs(Role),
}

/// A server's state for a while.
#[derive(Debug, Clone, PartialEq, Eq)]
pub struct Span {
    /// From when.
    pub from: u64,
    /// Until when.
    pub to: u64,
    /// What it is.
    pub state: State,
    /// Its term.
    pub term: u64,
}

/// Something at one moment of a server.
#[derive(Debug, Clone, Copy, PartialEq, Eq)]
pub enum Mark {
    /// It starts again.
    Restart,
    /// It crashes between two inputs.
    Crash,
    /// It crashes in an input, whose writes are lost.
    Cut,
}

/// A server.
#[derive(Debug, Clone, Default, PartialEq, Eq)]
pub struct Lane {
    /// What it is, in order.
    pub spans: Vec<Span>,
    /// What happens to it, in order.
    pub marks: Vec<(u64, Mark)>,
}

/// A state of the network for a while.
#[derive(Debug, Clone, PartialEq, Eq)]
pub struct Period {
    /// From when.
    pub from: u64,
    /// Until when.
    pub to: u64,
    /// In words.
    pub text: String,
}

/// Something worth a line.
#[derive(Debug, Clone, PartialEq, Eq)]
pub struct Note {
    /// When.
    pub time: u64,
    /// Of which server; 0 for none.
    pub server: u64,
    /// In words.
    pub text: String,
}

/// A run in time.
#[derive(Debug, Clone, Default, PartialEq, Eq)]
pub struct Timeline {
    /// The servers.
    pub lanes: Vec<Lane>,
    /// Links that carry nothing.
    pub links: Vec<Period>,
    /// Messages that are lost, doubled or slow.
    pub delivery: Vec<Period>,
    /// Failed checks: when, and which.
    pub violations: Vec<(u64, String)>,
    /// What is worth a line, in order.
    pub notes: Vec<Note>,
    /// The end of the run.
    pub end: u64,
}

impl Timeline {
    /// Something that must not happen.
    pub fn broken(&mut self, time: u64, server: u64, name: &str, about: &str) {
        self.violations.push((time, name.to_owned()));
        self.notes.push(Note {
            time,
            server,
            text: format!("VIOLATED: {name}: {about}"),
        });
    }
}

/// Notes a run.
pub struct Recorder {
    servers: u64,
    timeline: Timeline,
    blocked: BTreeSet<(u64, u64)>,
    loss: u64,
    duplication: u64,
    factor: u64,
}

impl Recorder {
    /// Of so many servers.
    pub fn new(servers: u64) -> Self {
        let lanes = (0..servers).map(|_| Lane::default()).collect();
        Recorder {
            servers,
            timeline: Timeline {
                lanes,
                ..Timeline::default()
            },
            blocked: BTreeSet::new(),
            loss: 0,
            duplication: 0,
            factor: 1,
        }
    }

    /// The run, over at this time.
    pub fn timeline(mut self, end: u64) -> Timeline {
        for lane in &mut self.timeline.lanes {
            if let Some(span) = lane.spans.last_mut() {
                span.to = end;
            }
        }
        let timeline = &mut self.timeline;
        for period in [&mut timeline.links, &mut timeline.delivery] {
            close(period, end);
        }
        timeline.end = end;
        self.timeline
    }

    /// A server's lane.
    fn lane(&mut self, server: u64) -> Option<&mut Lane> {
        let at = usize::try_from(server).ok()?.checked_sub(1)?;
        self.timeline.lanes.get_mut(at)
    }

    /// A server is something else from now on.
    fn state(&mut self, time: u64, server: u64, state: State, term: u64) {
        let Some(lane) = self.lane(server) else {
            return;
        };
        if let Some(span) = lane.spans.last_mut() {
            span.to = time;
        }
        lane.spans.push(Span {
            from: time,
            to: time,
            state,
            term,
        });
    }

    fn mark(&mut self, time: u64, server: u64, mark: Mark) {
        if let Some(lane) = self.lane(server) {
            lane.marks.push((time, mark));
        }
    }

    fn note(&mut self, time: u64, server: u64, text: String) {
        self.timeline.notes.push(Note { time, server, text });
    }

    /// The server has stopped; where an input was not cut just now, between two inputs.
    fn stopped(&mut self, time: u64, server: u64) {
        let last = self
            .lane(server)
            .and_then(|lane| lane.marks.last().copied());
        if last != Some((time, Mark::Cut)) {
            self.mark(time, server, Mark::Crash);
            self.note(time, server, "crashes between two inputs".to_owned());
        }
        self.state(time, server, State::Down, 0);
    }

    // ----- The network ---------------------------------------------------------------

    fn fault(&mut self, time: u64, fault: &Fault) {
        let (first, second) = (fault.first, fault.second);
        match fault.kind {
            of::PARTITION => self.partition(&fault.groups),
            of::BLOCK => drop(self.blocked.insert((first, second))),
            of::UNBLOCK => drop(self.blocked.remove(&(first, second))),
            of::HEAL_LINKS => self.blocked.clear(),
            of::SET_LOSS => self.loss = first,
            of::SET_DUPLICATION => self.duplication = first,
            of::SET_DELAY_FACTOR => self.factor = first.max(1),
            of::HEAL_ALL => {
                self.blocked.clear();
                (self.loss, self.duplication, self.factor) = (0, 0, 1);
            }
            _ => return,
        }
        let (links, delivery) = (self.links(), self.delivery());
        let changed = turn(&mut self.timeline.links, time, links)
            | turn(&mut self.timeline.delivery, time, delivery);
        if changed {
            self.note(time, 0, words::fault(fault));
        }
    }

    fn partition(&mut self, groups: &[u8]) {
        let members = |bits: u8| (1..=8).filter(move |id| bits >> (id - 1) & 1 == 1);
        for (at, one) in groups.iter().enumerate() {
            for other in &groups[at + 1..] {
                for a in members(*one) {
                    let links = members(*other).flat_map(|b| [(a, b), (b, a)]);
                    self.blocked.extend(links);
                }
            }
        }
    }

    /// The blocked links in words: a partition's sides, or each link.
    fn links(&self) -> String {
        let sides = self.sides();
        let apart = |a: u64, b: u64| side(&sides, a) != side(&sides, b);
        let servers = 1..=self.servers;
        let across = servers.flat_map(|a| (1..=self.servers).map(move |b| (a, b)));
        let across: BTreeSet<_> = across.filter(|(a, b)| apart(*a, *b)).collect();
        if self.blocked == across {
            if self.blocked.is_empty() {
                return String::new();
            }
            let bits = |side: &Vec<u64>| side.iter().map(|id| 1u8 << (id - 1)).sum();
            return words::groups(&sides.iter().map(bits).collect::<Vec<u8>>());
        }
        let links = self.blocked.iter();
        let links: Vec<String> = links.map(|(from, to)| format!("{from}→{to}")).collect();
        links.join(" ")
    }

    /// The servers that reach one another both ways, over others too.
    fn sides(&self) -> Vec<Vec<u64>> {
        let mut sides: Vec<Vec<u64>> = Vec::new();
        for id in 1..=self.servers {
            let reaches = |other: &u64| {
                !self.blocked.contains(&(id, *other)) && !self.blocked.contains(&(*other, id))
            };
            let (joined, apart): (Vec<_>, Vec<_>) =
                sides.into_iter().partition(|side| side.iter().any(reaches));
            sides = apart;
            let mut side: Vec<u64> = joined.into_iter().flatten().collect();
            side.push(id);
            sides.push(side);
        }
        sides.sort();
        sides
    }

    /// Loss, duplication and delay in words.
    fn delivery(&self) -> String {
        let mut parts = Vec::new();
        if self.loss > 0 {
            parts.push(format!("{} lost", words::percent(self.loss)));
        }
        if self.duplication > 0 {
            parts.push(format!("{} twice", words::percent(self.duplication)));
        }
        if self.factor > 1 {
            parts.push(format!("{} × slower", self.factor));
        }
        parts.join(", ")
    }
}

/// The side that a server is on.
fn side(sides: &[Vec<u64>], server: u64) -> Option<usize> {
    sides.iter().position(|side| side.contains(&server))
}

/// Ends the last period, and begins another where there is something to say. Returns whether it is
/// another.
fn turn(periods: &mut Vec<Period>, time: u64, text: String) -> bool {
    let open = periods.last().filter(|period| period.to == u64::MAX);
    if open.map_or("", |period| &period.text) == text {
        return false;
    }
    close(periods, time);
    if !text.is_empty() {
        periods.push(Period {
            from: time,
            to: u64::MAX,
            text,
        });
    }
    true
}

/// Ends the last period.
fn close(periods: &mut [Period], time: u64) {
    if let Some(period) = periods.last_mut() {
        period.to = period.to.min(time.max(period.from));
    }
}

impl Listen for Recorder {
    fn happened(&mut self, time: u64, server: u64, what: &Happening<'_>) {
        match what {
            Happening::Opened(Opened::Start { incarnation }) if *incarnation > 0 => {
                self.mark(time, server, Mark::Restart);
                self.note(time, server, "starts again".to_owned());
            }
            Happening::Status { role, term } => {
                self.state(time, server, State::Runs(*role), term.0);
                if *role != Role::Follower {
                    let text = format!("becomes {} of term {}", role_name(*role), term.0);
                    self.note(time, server, text);
                }
            }
            Happening::Cut { writes } => {
                self.mark(time, server, Mark::Cut);
                let writes = words::count(*writes as u64, "write");
                self.note(time, server, format!("crashes in an input: {writes} lost"));
            }
            Happening::Stopped => self.stopped(time, server),
            Happening::Fault(fault) => self.fault(time, fault),
            Happening::Violation(violation) => {
                let Broken {
                    time, name, text, ..
                } = Broken::from(*violation);
                self.timeline.broken(time, server, &name, &text);
            }
            _ => {}
        }
    }

    fn again(&mut self, _raised: &Raised) {
        *self = Recorder::new(self.servers);
    }
}

#[cfg(test)]
mod tests {
    use super::*;

    /// A recorder that met these faults, a second apart.
    fn after(faults: &[Fault]) -> Timeline {
        let mut recorder = Recorder::new(3);
        for (at, fault) in faults.iter().enumerate() {
            recorder.happened(at as u64, 0, &Happening::Fault(fault));
        }
        recorder.timeline(9)
    }

    #[test]
    fn a_partition_lasts_until_it_is_healed() {
        let partition = Fault {
            groups: vec![0b001, 0b110],
            ..Fault::of(of::PARTITION, 0)
        };
        let heal = Fault::of(of::HEAL_LINKS, 0);
        let timeline = after(&[partition.clone(), heal, partition]);
        let told: Vec<_> = timeline
            .links
            .iter()
            .map(|p| (p.from, p.to, &*p.text))
            .collect();
        assert_eq!(told, [(0, 1, "1 | 2 3"), (2, 9, "1 | 2 3")]);
    }

    #[test]
    fn one_way_links_and_slow_messages() {
        let block = Fault {
            second: 3,
            ..Fault::of(of::BLOCK, 1)
        };
        let slow = Fault::of(of::SET_DELAY_FACTOR, 4);
        let timeline = after(&[block, slow, Fault::of(of::HEAL_ALL, 0)]);
        assert_eq!(timeline.links[0].text, "1→3");
        assert_eq!(timeline.delivery[0].text, "4 × slower");
        assert_eq!((timeline.links[0].to, timeline.delivery[0].to), (2, 2));
    }

    #[test]
    fn a_cut_is_no_crash_between_inputs() {
        let mut recorder = Recorder::new(2);
        recorder.happened(5, 1, &Happening::Cut { writes: 2 });
        recorder.happened(5, 1, &Happening::Stopped);
        recorder.happened(6, 2, &Happening::Stopped);
        let timeline = recorder.timeline(9);
        assert_eq!(timeline.lanes[0].marks, [(5, Mark::Cut)]);
        assert_eq!(timeline.lanes[1].marks, [(6, Mark::Crash)]);
    }
}
