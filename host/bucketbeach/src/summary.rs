//! A campaign in a table and a sentence.

use std::fmt::Write as _;
use std::time::Duration;

use crate::options::asking;
use crate::record::{Broken, Record, Shared};
use crate::words::{self, count, grouped, seconds};

/// Violations that a run keeps.
const KEPT: usize = 32;

/// A campaign that is over: what its runs share, and the runs in order of their seeds.
#[derive(Debug, Clone)]
pub struct Summary {
    /// What the runs share.
    pub shared: Shared,
    /// The runs; at least one.
    pub records: Vec<Record>,
}

/// How a campaign ended.
#[derive(Debug, Clone, Copy, PartialEq, Eq)]
pub enum Outcome {
    /// No check failed.
    Passed,
    /// A check failed.
    Failed,
    /// A node broke its contract: its run ended unchecked.
    Faulted,
}

impl Outcome {
    /// The exit status.
    pub fn status(self) -> u8 {
        self as u8
    }

    /// In a word.
    pub fn word(self) -> &'static str {
        match self {
            Outcome::Passed => "PASSED",
            Outcome::Failed => "FAILED",
            Outcome::Faulted => "NODE'S FAULT",
        }
    }
}

/// A check that failed in a campaign.
#[derive(Debug, Clone, PartialEq, Eq)]
pub struct Row {
    /// Its name.
    pub name: String,
    /// Its number.
    pub check: u64,
    /// The runs in which it failed.
    pub runs: u64,
    /// The violations that were kept.
    pub violations: u64,
    /// The first seed.
    pub seed: u64,
}

impl Summary {
    /// The runs in which a check failed.
    pub fn failing(&self) -> impl Iterator<Item = &Record> {
        self.records.iter().filter(|record| record.reported > 0)
    }

    /// The runs in which the node broke its contract.
    pub fn faulty(&self) -> impl Iterator<Item = &Record> {
        self.records.iter().filter(|record| record.fault.is_some())
    }

    /// The run that a reader wants to see: the first that failed, or the first.
    pub fn telling(&self) -> &Record {
        let bad = |record: &&Record| record.reported > 0 || record.fault.is_some();
        let failing = self.failing().next();
        failing.unwrap_or_else(|| self.records.iter().find(bad).unwrap_or(&self.records[0]))
    }

    /// How it ended.
    pub fn outcome(&self) -> Outcome {
        if self.faulty().next().is_some() {
            Outcome::Faulted
        } else if self.failing().next().is_some() {
            Outcome::Failed
        } else {
            Outcome::Passed
        }
    }

    /// A counter over all runs.
    pub fn sum(&self, of: impl Fn(&Record) -> u64) -> u64 {
        self.records.iter().map(of).fold(0, u64::saturating_add)
    }

    /// The seeds that were run.
    pub fn seeds(&self) -> String {
        let ends = (self.records.first(), self.records.last());
        let (Some(first), Some(last)) = ends else {
            return String::new();
        };
        let ran = format!("{}..{}", first.seed, last.seed);
        let (from, to) = self.shared.campaign;
        if (first.seed, last.seed) == (from, to) {
            ran
        } else {
            format!("{ran} (a part of {from}..{to})")
        }
    }

    /// The checks that failed, in the reference's order.
    pub fn checks(&self) -> Vec<Row> {
        let mut rows: Vec<Row> = Vec::new();
        for record in &self.records {
            let mut met = Vec::new();
            for broken in &record.violations {
                let first = !met.contains(&broken.check);
                met.push(broken.check);
                add(&mut rows, broken, record.seed, first);
            }
        }
        rows.sort_by_key(|row| row.check);
        rows
    }

    /// Violations that were counted and not kept.
    pub fn unkept(&self) -> u64 {
        let kept = |record: &Record| record.violations.len().min(KEPT) as u64;
        self.sum(|record| record.reported.saturating_sub(kept(record)))
    }

    /// The runs at whose end durability could not be checked, though the node kept its contract.
    pub fn unsettled(&self) -> u64 {
        self.sum(|record| u64::from(!record.settled && record.fault.is_none()))
    }

    /// The verdict in a sentence.
    pub fn sentence(&self) -> String {
        let runs = count(self.records.len() as u64, "run");
        let node = &self.shared.node;
        let failing = self.failing().count();
        match (self.outcome(), self.failing().next()) {
            (Outcome::Passed, _) => {
                format!(
                    "no check failed in {runs} of the node {node}, seeds {}.",
                    self.seeds()
                )
            }
            (Outcome::Failed, Some(record)) => format!(
                "a check failed in {failing} of {runs} of the node {node}; first with seed {}: {}.",
                record.seed,
                first_words(record)
            ),
            _ => {
                let faulty = self.faulty().count();
                let unchecked = format!("the node {node} broke its contract in {faulty} of {runs}");
                let also = match failing {
                    0 => String::new(),
                    more => format!(", and a check failed in {more}"),
                };
                let first = self.faulty().next().map(fault_words).unwrap_or_default();
                format!("{unchecked}{also}; first with {first}.")
            }
        }
    }

    /// The command that tells the telling run.
    pub fn again(&self) -> String {
        let Shared { node, settings, .. } = &self.shared;
        let record = self.telling();
        let program = crate::program();
        format!("{program} run {}{}", record.seed, asking(node, settings))
    }

    /// The table and the verdict.
    pub fn table(&self, took: Option<Duration>) -> String {
        let mut text = String::new();
        for (name, value) in self.facts(took) {
            let _ = writeln!(text, "{name:<10} {value}");
        }
        let rows = self.checks();
        if !rows.is_empty() {
            text += "\ncheck                  runs  violations  first seed\n";
        }
        for row in rows {
            let (runs, violations) = (grouped(row.runs), grouped(row.violations));
            let _ = writeln!(
                text,
                "{:<20} {runs:>6} {violations:>11} {:>11}",
                row.name, row.seed
            );
        }
        if self.unkept() > 0 {
            let more = grouped(self.unkept());
            let _ = writeln!(
                text,
                "{more} more were counted; a run keeps its first {KEPT}"
            );
        }
        let _ = writeln!(text, "\n{}: {}", self.outcome().word(), self.sentence());
        if self.outcome() != Outcome::Passed {
            let _ = writeln!(text, "its story: {}", self.again());
        }
        text
    }

    /// The campaign's facts: names and values.
    pub fn facts(&self, took: Option<Duration>) -> Vec<(&'static str, String)> {
        let setup = &self.shared.settings;
        let (servers, clients) = (
            count(setup.servers, "server"),
            count(setup.clients, "client"),
        );
        let faults = match setup.faults.join(", ") {
            none if none.is_empty() => "none".to_owned(),
            faults => faults,
        };
        let runs = count(self.records.len() as u64, "run");
        let simulated = seconds(self.sum(|record| record.time));
        let (events, rate) = (self.sum(|record| record.events), speed(self, took));
        let acknowledged = grouped(self.sum(|record| record.metrics.client_replies));
        let syncs = grouped(self.sum(|record| record.syncs));
        let mut facts = vec![
            ("node", self.shared.node.clone()),
            ("judged by", self.shared.calls.clone()),
            ("cluster", format!("{servers}, {clients}")),
            ("faults", faults),
            (
                "seeds",
                format!("{}: {runs}, {simulated} simulated", self.seeds()),
            ),
            ("events", format!("{}{rate}", grouped(events))),
            (
                "work",
                format!("{acknowledged} commands acknowledged, {syncs} syncs"),
            ),
        ];
        let raised = self.sum(|record| u64::from(!record.raised.is_empty()));
        if raised > 0 {
            let runs = count(raised, "run");
            facts.push((
                "capacities",
                format!("{runs} made again with larger tables"),
            ));
        }
        if self.unsettled() > 0 {
            let runs = count(self.unsettled(), "run");
            facts.push((
                "durability",
                format!("not checked in {runs} without a quiet end"),
            ));
        }
        facts
    }
}

/// Adds a violation to the rows.
fn add(rows: &mut Vec<Row>, broken: &Broken, seed: u64, first: bool) {
    let at = rows.iter().position(|row| row.check == broken.check);
    let at = at.unwrap_or_else(|| {
        rows.push(Row {
            name: broken.name.clone(),
            check: broken.check,
            runs: 0,
            violations: 0,
            seed,
        });
        rows.len() - 1
    });
    rows[at].runs += u64::from(first);
    rows[at].violations += 1;
}

/// Events a second.
fn speed(summary: &Summary, took: Option<Duration>) -> String {
    let Some(took) = took else {
        return String::new();
    };
    let events = summary.sum(|record| record.events) as f64;
    let secs = took.as_secs_f64().max(1e-6);
    format!(
        " in {secs:.1} s, {} a second",
        grouped((events / secs) as u64)
    )
}

/// A run's first violation.
pub fn first_words(record: &Record) -> String {
    let broken = record.violations.first();
    broken.map_or_else(String::new, |broken| {
        format!(
            "{} at {}, {}",
            broken.name,
            seconds(broken.time),
            broken.text
        )
    })
}

/// A run's fault of its node.
pub fn fault_words(record: &Record) -> String {
    let fault = record.fault.as_ref();
    fault.map_or_else(String::new, |fault| {
        let (seed, time) = (record.seed, words::exact(fault.time));
        let (server, call, about) = (fault.server, &fault.call, &fault.about);
        format!("seed {seed}: server {server}, {call} at {time}: {about}")
    })
}
