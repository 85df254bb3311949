//! What a campaign has met.

use std::collections::BTreeMap;
use std::fmt;

/// The reference's events, in the order of declaration.
const EVENTS: [&str; 10] = [
    "event Start",
    "event Deliver",
    "event Timer",
    "event Fault",
    "event ClientSend",
    "event ClientArrive",
    "event ClientRedirect",
    "event ClientRetry",
    "event ClientReply",
    "event ClientTimeout",
];

/// Events that opened no input, though their kind can: they were old, or the server was stopped.
const IDLE: [&str; 4] = [
    "idle Start",
    "idle Deliver",
    "idle Timer",
    "idle ClientArrive",
];

/// The reference's faults, in the order of declaration.
const FAULTS: [&str; 12] = [
    "fault Crash",
    "fault CrashDuringNextInput",
    "fault Restart",
    "fault CrashLeader",
    "fault Partition",
    "fault Block",
    "fault Unblock",
    "fault HealLinks",
    "fault SetLoss",
    "fault SetDuplication",
    "fault SetDelayFactor",
    "fault HealAll",
];

/// The reference's checks, in the order of declaration.
const CHECKS: [&str; 8] = [
    "violation ElectionSafety",
    "violation StateMachineSafety",
    "violation ApplyOrder",
    "violation UniqueEntries",
    "violation Durability",
    "violation Liveness",
    "violation LogMatching",
    "violation LeaderCompleteness",
];

/// Durability has two texts.
const DURABILITY: [&str; 2] = [
    "violation Durability, another entry",
    "violation Durability, not applied",
];

/// The inputs, by what opened them and what the node answered.
const INPUTS: [&str; 10] = [
    "start",
    "message",
    "timer",
    "direct timer",
    "client proposal",
    "client proposal refused",
    "direct proposal",
    "direct proposal refused",
    "confirmation",
    "confirmation refused",
];

/// Other things that a trace should show.
const OTHERS: [&str; 9] = [
    "step, nothing due",
    "owed start, construction",
    "owed start, HealAll",
    "direct call at a stopped server",
    "refusal names a member",
    "refusal names a stranger",
    "refusal names nobody",
    "sync of nothing",
    "more than 32 violations",
];

/// What no run can meet: docs/src never reports liveness, and a start is never cut, because a
/// crash is only set for a running server and cleared when it stops.
const NEVER: [&str; 2] = ["violation Liveness", "cut start"];

/// How often each thing was met; what was not met is there with 0.
#[derive(Debug, Clone, PartialEq, Eq)]
pub struct Coverage {
    counts: BTreeMap<String, u64>,
}

impl Default for Coverage {
    fn default() -> Self {
        let plain = [
            EVENTS.as_slice(),
            &IDLE,
            &FAULTS,
            &CHECKS,
            &DURABILITY,
            &OTHERS,
        ];
        let names = plain.concat().into_iter().map(String::from);
        let sealed = ["input", "cut"]
            .into_iter()
            .flat_map(|seal| INPUTS.map(|input| format!("{seal} {input}")));
        Coverage {
            counts: names.chain(sealed).map(|name| (name, 0)).collect(),
        }
    }
}

impl Coverage {
    /// Counts one of the things named above.
    pub(crate) fn count(&mut self, name: &str) {
        *self.counts.get_mut(name).expect("a name of the table") += 1;
    }

    pub(crate) fn event(&mut self, kind: u64, opened: bool) {
        let name = EVENTS[kind as usize];
        self.count(name);
        let idle = name.replace("event", "idle");
        if !opened && IDLE.contains(&idle.as_str()) {
            self.count(&idle);
        }
    }

    pub(crate) fn fault(&mut self, kind: u64) {
        self.count(FAULTS[kind as usize]);
    }

    pub(crate) fn violation(&mut self, violation: &port::Violation) {
        let name = CHECKS[violation.check as usize];
        self.count(name);
        if name == "violation Durability" {
            self.count(DURABILITY[usize::from(violation.count > 1)]);
        }
    }

    /// Adds what another run has met.
    pub fn add(&mut self, other: &Coverage) {
        for (name, count) in &other.counts {
            *self.counts.entry(name.clone()).or_default() += count;
        }
    }

    /// How often a thing was met.
    pub fn get(&self, name: &str) -> u64 {
        self.counts.get(name).copied().unwrap_or_default()
    }

    /// What was not met and can be.
    pub fn missing(&self) -> Vec<&str> {
        let unmet = self.counts.iter().filter(|(_, count)| **count == 0);
        unmet
            .map(|(name, _)| name.as_str())
            .filter(|name| !NEVER.contains(name))
            .collect()
    }
}

impl fmt::Display for Coverage {
    fn fmt(&self, f: &mut fmt::Formatter<'_>) -> fmt::Result {
        for (name, count) in &self.counts {
            let note = if NEVER.contains(&name.as_str()) {
                "  (cannot occur)"
            } else {
                ""
            };
            writeln!(f, "  {name:40} {count:>10}{note}")?;
        }
        Ok(())
    }
}
