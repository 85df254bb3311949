//! A run as a JSON line, and what a campaign's lines share.

use judge::{Faults, NodeFault, Plan, Raised, Verdict};
use port::{Limits, Metrics, Settings, Violation};
use serde::{Deserialize, Serialize};

use crate::words;

/// A run of a campaign: one JSON line.
#[derive(Debug, Clone, PartialEq, Eq, Serialize, Deserialize)]
pub struct Record {
    /// The seed.
    pub seed: u64,
    /// The node, by its name.
    pub node: String,
    /// What answered the calls: the proved library, or in tests the reference's modules.
    pub calls: String,
    /// The first and last seed of the whole campaign, shards together.
    pub campaign: (u64, u64),
    /// The settings: with node and seed they give the run again.
    pub settings: Setup,
    /// The violations that were kept: the first 32.
    pub violations: Vec<Broken>,
    /// All that were reported.
    pub reported: u64,
    /// Whether durability was checked at the end: not, where the run came to no quiet moment.
    pub settled: bool,
    /// Events taken.
    pub events: u64,
    /// Syncs that wrote something.
    pub syncs: u64,
    /// The simulated time at the end, in nanoseconds.
    pub time: u64,
    /// The counters.
    pub metrics: Counters,
    /// The capacities that were doubled.
    pub raised: Vec<Doubled>,
    /// Where the node broke its contract.
    pub fault: Option<Fault>,
}

/// A check that failed.
#[derive(Debug, Clone, PartialEq, Eq, Serialize, Deserialize)]
pub struct Broken {
    /// When, in nanoseconds.
    pub time: u64,
    /// The check, 0 to 7.
    pub check: u64,
    /// The check's name.
    pub name: String,
    /// The numbers of the text.
    pub numbers: Vec<u64>,
    /// The text.
    pub text: String,
}

impl From<&Violation> for Broken {
    fn from(violation: &Violation) -> Self {
        let count = violation.numbers.len().min(violation.count as usize);
        let numbers = &violation.numbers[..count];
        Broken {
            time: violation.time,
            check: violation.check,
            name: words::check(violation.check).to_owned(),
            numbers: numbers.to_vec(),
            text: words::violation(violation.check, numbers),
        }
    }
}

/// A capacity that was doubled.
#[derive(Debug, Clone, PartialEq, Eq, Serialize, Deserialize)]
pub struct Doubled {
    /// Which.
    pub capacity: String,
    /// What it was.
    pub from: u64,
    /// What it is.
    pub to: u64,
    /// The call that found it full.
    pub call: String,
}

impl From<&Raised> for Doubled {
    fn from(raised: &Raised) -> Self {
        Doubled {
            capacity: raised.capacity.to_string(),
            from: raised.from,
            to: raised.to,
            call: raised.call.to_owned(),
        }
    }
}

/// A node that broke its contract.
#[derive(Debug, Clone, PartialEq, Eq, Serialize, Deserialize)]
pub struct Fault {
    /// When, in nanoseconds.
    pub time: u64,
    /// Whose node.
    pub server: u64,
    /// The call.
    pub call: String,
    /// The refusal, or 0.
    pub refusal: u64,
    /// What is wrong.
    pub about: String,
}

impl From<&NodeFault> for Fault {
    fn from(fault: &NodeFault) -> Self {
        Fault {
            time: fault.time,
            server: fault.server,
            call: fault.call.to_owned(),
            refusal: fault.refusal,
            about: fault.about.clone(),
        }
    }
}

/// Makes a record of numbers that can be written as JSON, from fields of the same names.
macro_rules! counters {
    ($($(#[$about:meta])* $field:ident,)*) => {
        /// The counters of a run.
        #[derive(Debug, Clone, Copy, Default, PartialEq, Eq, Serialize, Deserialize)]
        pub struct Counters {
            $($(#[$about])* pub $field: u64,)*
        }

        impl From<&Metrics> for Counters {
            fn from(metrics: &Metrics) -> Self {
                Counters { $($field: metrics.$field,)* }
            }
        }
    };
}

counters! {
    /// Messages sent.
    messages,
    /// Bytes sent.
    bytes,
    /// Entries sent.
    entries,
    /// Entries delivered to a candidate or leader.
    entries_to_leaders,
    /// Syncs that wrote something.
    fsyncs,
    /// Bytes that they wrote.
    storage_bytes,
    /// Commands acknowledged.
    client_replies,
    /// Entries overwritten or truncated.
    discarded,
    /// The largest number of gaps in a log.
    max_log_gaps,
}

/// Makes the settings' record, from the fields of a plan's settings and limits.
macro_rules! setup {
    (settings { $($setting:ident,)* } limits { $($limit:ident,)* }) => {
        /// A plan's settings, limits, faults and ends.
        #[derive(Debug, Clone, PartialEq, Eq, Serialize, Deserialize)]
        #[allow(missing_docs)] // the fields of `port::Settings` and `port::Limits`
        pub struct Setup {
            $(pub $setting: u64,)*
            $(pub $limit: u64,)*
            /// The faults, by name.
            pub faults: Vec<String>,
            /// The simulated time, in nanoseconds.
            pub time: u64,
            /// The time after that within which every server must have caught up.
            pub patience: u64,
            /// The events with which a run ends in any case.
            pub most_events: u64,
        }

        impl From<&Plan> for Setup {
            fn from(plan: &Plan) -> Self {
                Setup {
                    $($setting: plan.settings.$setting,)*
                    $($limit: plan.limits.$limit,)*
                    faults: fault_names(plan.faults).map(str::to_owned).collect(),
                    time: plan.time,
                    patience: plan.patience,
                    most_events: plan.events,
                }
            }
        }

        impl Setup {
            /// The plan of these settings.
            pub fn plan(&self) -> Plan {
                Plan {
                    settings: Settings { $($setting: self.$setting,)* },
                    limits: Limits { $($limit: self.$limit,)* },
                    faults: faults_of(self.faults.iter().map(String::as_str)).unwrap_or(Faults::NONE),
                    time: self.time,
                    patience: self.patience,
                    events: self.most_events,
                }
            }
        }
    };
}

setup! {
    settings {
        servers, heartbeat_interval, election_timeout_min, election_timeout_max,
        max_entries_per_message, max_entries_in_flight, one_way_delay, clients, command_bytes,
        client_timeout, client_backoff, count_bytes, raft_checks, start_spread,
    }
    limits { log, payload, message, events, writes, history, }
}

/// The faults of a list of names.
///
/// # Errors
///
/// A line that says which there are.
pub fn faults_of<'a>(names: impl Iterator<Item = &'a str>) -> Result<Faults, String> {
    let mut faults = Faults::NONE;
    for name in names {
        match name {
            "chaos" => faults.chaos = true,
            "crashes" => faults.crashes = true,
            "contests" => faults.contests = true,
            "calls" => faults.calls = true,
            "all" => faults = Faults::ALL,
            "none" => {}
            _ => {
                return Err(
                    "faults are a list of chaos, crashes, contests, calls; or all; or none"
                        .to_owned(),
                );
            }
        }
    }
    Ok(faults)
}

/// The names of faults.
pub fn fault_names(faults: Faults) -> impl Iterator<Item = &'static str> {
    let all = [
        (faults.chaos, "chaos"),
        (faults.crashes, "crashes"),
        (faults.contests, "contests"),
        (faults.calls, "calls"),
    ];
    all.into_iter()
        .filter(|(has, _)| *has)
        .map(|(_, name)| name)
}

/// What every line of a campaign has.
#[derive(Debug, Clone, PartialEq, Eq)]
pub struct Shared {
    /// The node, by its name.
    pub node: String,
    /// What answered the calls.
    pub calls: String,
    /// The first and last seed of the whole campaign.
    pub campaign: (u64, u64),
    /// The settings.
    pub settings: Setup,
}

impl Shared {
    /// The record of a run of this campaign.
    pub fn record(&self, verdict: &Verdict) -> Record {
        Record {
            seed: verdict.seed,
            node: self.node.clone(),
            calls: self.calls.clone(),
            campaign: self.campaign,
            settings: self.settings.clone(),
            violations: verdict.violations.iter().map(Broken::from).collect(),
            reported: verdict.reported,
            settled: verdict.settled,
            events: verdict.events,
            syncs: verdict.metrics.fsyncs,
            time: verdict.time,
            metrics: Counters::from(&verdict.metrics),
            raised: verdict.raised.iter().map(Doubled::from).collect(),
            fault: verdict.fault.as_ref().map(Fault::from),
        }
    }
}

impl From<&Record> for Shared {
    fn from(record: &Record) -> Self {
        Shared {
            node: record.node.clone(),
            calls: record.calls.clone(),
            campaign: record.campaign,
            settings: record.settings.clone(),
        }
    }
}

#[cfg(test)]
mod tests {
    use super::*;

    #[test]
    fn a_plan_comes_back() {
        let plan = Plan::default();
        assert_eq!(Setup::from(&plan).plan(), plan);
    }

    #[test]
    fn faults_by_name() {
        let faults = faults_of("chaos,calls".split(',')).unwrap();
        assert_eq!(fault_names(faults).collect::<Vec<_>>(), ["chaos", "calls"]);
        assert_eq!(faults_of("all".split(',')), Ok(Faults::ALL));
        assert!(faults_of("rain".split(',')).unwrap_err().contains("chaos"));
    }
}
