//! The command line.

use std::ops::Range;
use std::path::PathBuf;

use clap::{Args, Parser, Subcommand};
use judge::{Faults, Plan};
use trace::Tables;

use crate::record::{Setup, fault_names, faults_of};

/// Judges consensus nodes under a proved crash simulator.
///
/// Exit status: 0 no violation or difference, 1 some, 2 wrong usage or a node's fault.
#[derive(Debug, Parser)]
#[command(name = "bucketbeach", version, disable_help_subcommand = true)]
pub struct Options {
    /// What to do.
    #[command(subcommand)]
    pub task: Task,
}

/// What to do.
#[derive(Debug, Subcommand)]
pub enum Task {
    /// Run a campaign of many seeds and tell the verdict
    Judge(JudgeOptions),
    /// Tell one run as a story
    Run(RunOptions),
    /// Join the JSON lines of a campaign that was split with --shard
    Merge(MergeOptions),
    /// Make runs of the reference again at the calls, and compare every answer
    Compare(CompareOptions),
    /// Make the calls of a file, and compare every answer with the file's
    Replay(ReplayOptions),
}

/// Of `judge`.
#[derive(Debug, Args)]
pub struct JudgeOptions {
    /// The run.
    #[command(flatten)]
    pub plan: PlanOptions,
    /// The seeds, both ends included
    #[arg(long, value_name = "FIRST..LAST", default_value = "1..100", value_parser = seeds)]
    pub seeds: Seeds,
    /// Only part I of N of the seeds, from 1
    #[arg(long, value_name = "I/N", value_parser = shard)]
    pub shard: Option<Shard>,
    /// The files.
    #[command(flatten)]
    pub files: FileOptions,
    /// Write a JSON line a run
    #[arg(long, value_name = "FILE")]
    pub json: Option<PathBuf>,
}

/// Of `run`.
#[derive(Debug, Args)]
pub struct RunOptions {
    /// The seed of the run
    #[arg(value_name = "SEED", value_parser = seed)]
    pub seed: u64,
    /// The run.
    #[command(flatten)]
    pub plan: PlanOptions,
    /// Tell nothing before this time
    #[arg(long, value_name = "TIME", value_parser = moment)]
    pub from: Option<u64>,
    /// Tell nothing after this time
    #[arg(long, value_name = "TIME", value_parser = moment)]
    pub until: Option<u64>,
    /// Tell only of this server (and of faults and violations)
    #[arg(long, value_name = "SERVER", value_parser = number("a server is", 1, 8))]
    pub server: Option<u64>,
}

/// Of `merge`.
#[derive(Debug, Args)]
pub struct MergeOptions {
    /// Files that `judge --json` wrote
    #[arg(value_name = "FILES", required = true)]
    pub lines: Vec<PathBuf>,
    /// The files.
    #[command(flatten)]
    pub files: FileOptions,
    /// Write the lines of all, in order of their seeds
    #[arg(long, value_name = "FILE")]
    pub json: Option<PathBuf>,
}

/// Of `compare`.
#[derive(Debug, Args)]
pub struct CompareOptions {
    /// The node: raft, hostile, wide, vote-not-saved, term-not-saved, applies-early,
    /// truncates-too-far; or all
    #[arg(value_name = "MODE")]
    pub mode: String,
    /// The seed of the run; or seeds, both ends included: 1..20
    #[arg(value_name = "SEED", value_parser = seed_or_seeds)]
    pub seeds: Seeds,
    /// The sizes of the tables: smallest (each is full once), doubled, largest (half a gigabyte; a
    /// run's first 200 calls, with fewer reads)
    #[arg(long, value_name = "SIZE", default_value = "smallest", value_parser = tables)]
    pub limits: Tables,
    /// Only the first calls of a run
    #[arg(long, value_name = "N", value_parser = number("calls are", 1, u64::MAX))]
    pub calls: Option<u64>,
    /// What is told of a difference.
    #[command(flatten)]
    pub told: ToldOptions,
}

/// Of `replay`.
#[derive(Debug, Args)]
pub struct ReplayOptions {
    /// A file that `write_trace` wrote
    #[arg(value_name = "FILE")]
    pub file: PathBuf,
    /// What is told of a difference.
    #[command(flatten)]
    pub told: ToldOptions,
}

/// What is told of a difference.
#[derive(Debug, Args)]
pub struct ToldOptions {
    /// Calls that are told before the first difference
    #[arg(long, value_name = "N", default_value = "12", value_parser = number("calls are", 0, 1 << 32))]
    pub before: u64,
}

/// What is written.
#[derive(Debug, Args)]
pub struct FileOptions {
    /// Write the report page
    #[arg(long, value_name = "FILE")]
    pub report: Option<PathBuf>,
    /// Overwrite files that exist
    #[arg(long)]
    pub force: bool,
}

/// What a run is.
#[derive(Debug, Args)]
pub struct PlanOptions {
    /// The node: correct, vote-not-saved, term-not-saved, applies-early, truncates-too-far, or an
    /// own one that was linked
    #[arg(long, value_name = "NAME")]
    pub node: Option<String>,
    /// Servers, 1 to 8 [default: 3]
    #[arg(long, value_name = "S", value_parser = number("there are", 1, 8))]
    pub servers: Option<u64>,
    /// Clients, 0 to 64 [default: 3]
    #[arg(long, value_name = "C", value_parser = number("there are", 0, 64))]
    pub clients: Option<u64>,
    /// Simulated time, e.g. 20s, 2.5s, 800ms; a run ends earlier where its log is full [default: 5s]
    #[arg(long, value_name = "TIME", value_parser = length)]
    pub time: Option<u64>,
    /// A list of chaos, crashes, contests, calls; or all; or none [default: all]
    #[arg(long, value_name = "LIST", value_parser = faults)]
    pub faults: Option<Faults>,
    /// L: places of a log, 1 to 1024 [default: 384]
    #[arg(long, value_name = "L", value_parser = number("a log's places are", 1, 1_024))]
    pub log: Option<u64>,
    /// P: bytes of a payload, 12 to 256 [default: 16]
    #[arg(long, value_name = "P", value_parser = number("a payload's bytes are", 12, 256))]
    pub payload: Option<u64>,
    /// M: bytes of a message, 0 to 4096 [default: 256]
    #[arg(long, value_name = "M", value_parser = number("a message's bytes are", 0, 4_096))]
    pub message: Option<u64>,
    /// Q: events at first, 1 to 65536 [default: 256]; doubled where they are full, as W and H
    #[arg(long, value_name = "Q", value_parser = number("events are", 1, 65_536))]
    pub events: Option<u64>,
    /// W: writes of an input at first, 1 to 65536 [default: 64]
    #[arg(long, value_name = "W", value_parser = number("writes are", 1, 65_536))]
    pub writes: Option<u64>,
    /// H: history at first, 1 to 65536 [default: 512]
    #[arg(long, value_name = "H", value_parser = number("history is", 1, 65_536))]
    pub history: Option<u64>,
}

impl PlanOptions {
    /// The plan: the default one, with what was asked for. Commands have 16 bytes, or as many as a
    /// payload may have.
    pub fn plan(&self) -> Plan {
        let mut plan = Plan::default();
        let set = |place: &mut u64, asked: Option<u64>| *place = asked.unwrap_or(*place);
        set(&mut plan.settings.servers, self.servers);
        set(&mut plan.settings.clients, self.clients);
        set(&mut plan.time, self.time);
        set(&mut plan.limits.log, self.log);
        set(&mut plan.limits.payload, self.payload);
        set(&mut plan.limits.message, self.message);
        set(&mut plan.limits.events, self.events);
        set(&mut plan.limits.writes, self.writes);
        set(&mut plan.limits.history, self.history);
        plan.faults = self.faults.unwrap_or(plan.faults);
        let command = plan.settings.command_bytes.min(plan.limits.payload);
        plan.settings.command_bytes = command;
        plan
    }
}

/// The options that ask for this node and these settings, where they are not the default.
pub fn asking(node: &str, setup: &Setup) -> String {
    let default = Setup::from(&Plan::default());
    let mut options = format!(" --node {node}");
    let numbers = [
        ("servers", setup.servers, default.servers),
        ("clients", setup.clients, default.clients),
        ("log", setup.log, default.log),
        ("payload", setup.payload, default.payload),
        ("message", setup.message, default.message),
        ("events", setup.events, default.events),
        ("writes", setup.writes, default.writes),
        ("history", setup.history, default.history),
    ];
    for (name, asked, usual) in numbers {
        if asked != usual {
            options += &format!(" --{name} {asked}");
        }
    }
    if setup.time != default.time {
        options += &format!(" --time {}us", setup.time / 1_000);
    }
    if setup.faults != default.faults {
        let names: Vec<&str> = fault_names(setup.plan().faults).collect();
        let names = if names.is_empty() {
            vec!["none"]
        } else {
            names
        };
        options += &format!(" --faults {}", names.join(","));
    }
    options
}

// ----- Values ------------------------------------------------------------------------

/// Seeds, both ends included.
#[derive(Debug, Clone, Copy, PartialEq, Eq)]
pub struct Seeds {
    /// The first.
    pub first: u64,
    /// The last.
    pub last: u64,
}

impl Seeds {
    /// The part of a shard.
    ///
    /// # Errors
    ///
    /// The shards are more than the seeds.
    pub fn part(self, shard: Option<Shard>) -> Result<Range<u64>, String> {
        let (first, count) = (self.first, self.last - self.first + 1);
        let Shard { part, parts } = shard.unwrap_or(Shard { part: 1, parts: 1 });
        if parts > count {
            return Err(format!(
                "--shard {part}/{parts}: the seeds are {count}, so N is 1 to {count}"
            ));
        }
        let at = |part: u64| {
            let seeds = u128::from(count) * u128::from(part) / u128::from(parts);
            first + seeds as u64
        };
        Ok(at(part - 1)..at(part))
    }
}

/// A part of a campaign.
#[derive(Debug, Clone, Copy, PartialEq, Eq)]
pub struct Shard {
    /// Which, from 1.
    pub part: u64,
    /// Of how many.
    pub parts: u64,
}

fn seeds(text: &str) -> Result<Seeds, String> {
    let ends = text.split_once("..").and_then(|(first, last)| {
        let (first, last) = (first.parse().ok()?, last.parse().ok()?);
        (first <= last && last < 1 << 63).then_some(Seeds { first, last })
    });
    let wrong = "seeds are FIRST..LAST, FIRST not after LAST, both included, e.g. 1..500";
    ends.ok_or_else(|| wrong.to_owned())
}

/// One seed, or seeds.
fn seed_or_seeds(text: &str) -> Result<Seeds, String> {
    let one = text.parse().ok().filter(|seed| *seed < 1 << 63);
    let one = one.map(|seed| Seeds {
        first: seed,
        last: seed,
    });
    let or = |wrong| format!("a seed is a number, e.g. 7; {wrong}");
    one.map_or_else(|| seeds(text).map_err(or), Ok)
}

fn tables(text: &str) -> Result<Tables, String> {
    let names = Tables::ALL.map(Tables::name).join(", ");
    let known = Tables::ALL.into_iter().find(|size| size.name() == text);
    known.ok_or_else(|| format!("the sizes are {names}"))
}

fn shard(text: &str) -> Result<Shard, String> {
    let parts = text.split_once('/').and_then(|(part, parts)| {
        let (part, parts) = (part.parse().ok()?, parts.parse().ok()?);
        (1 <= part && part <= parts).then_some(Shard { part, parts })
    });
    parts.ok_or_else(|| "a shard is I/N with I from 1 to N, e.g. 2/8".to_owned())
}

fn seed(text: &str) -> Result<u64, String> {
    let wrong = |_| format!("a seed is a number from 0 to {}", u64::MAX);
    text.parse().map_err(wrong)
}

fn faults(text: &str) -> Result<Faults, String> {
    faults_of(text.split(',').map(str::trim))
}

/// A number in a range.
fn number(
    what: &'static str,
    least: u64,
    most: u64,
) -> impl Fn(&str) -> Result<u64, String> + Clone + Send + Sync + 'static {
    move |text| {
        let number = text.parse().ok();
        let fits = number.filter(|number| (least..=most).contains(number));
        fits.ok_or_else(|| format!("{what} {least} to {most}"))
    }
}

/// A time of a run in nanoseconds.
fn moment(text: &str) -> Result<u64, String> {
    const UNITS: [(&str, f64); 5] = [
        ("ns", 1.0),
        ("us", 1e3),
        ("ms", 1e6),
        ("min", 6e10),
        ("s", 1e9),
    ];
    let text = text.trim();
    let split = UNITS.iter().find_map(|(name, unit)| {
        let number = text.strip_suffix(name)?;
        Some((number.trim().parse::<f64>().ok()?, unit))
    });
    let nanos = split.map(|(number, unit)| (number * unit).round());
    match nanos {
        Some(nanos) if (0.0..=3.6e12).contains(&nanos) => Ok(nanos as u64),
        _ => Err("a time is a number with a unit, up to an hour, e.g. 20s, 2.5s, 800ms".to_owned()),
    }
}

/// The length of a run in nanoseconds.
fn length(text: &str) -> Result<u64, String> {
    let nanos = moment(text)?;
    let short = "a run takes a millisecond to an hour, e.g. 20s, 2.5s, 800ms";
    (nanos >= 1_000_000)
        .then_some(nanos)
        .ok_or(short.to_owned())
}

#[cfg(test)]
mod tests {
    use super::*;

    #[test]
    fn times() {
        assert_eq!(moment("20s"), Ok(20_000_000_000));
        assert_eq!(moment("2.5s"), Ok(2_500_000_000));
        assert_eq!(moment("800 ms"), Ok(800_000_000));
        for wrong in ["20", "s", "-1s", "nans", "infs", "2h", "61min"] {
            assert!(moment(wrong).is_err(), "{wrong}");
        }
        assert!(length("0s").is_err());
    }

    #[test]
    fn ranges_of_seeds() {
        assert_eq!(
            seeds("1..500"),
            Ok(Seeds {
                first: 1,
                last: 500
            })
        );
        for wrong in ["5", "5..1", "..", "1..", "a..b", "1..18446744073709551615"] {
            assert!(seeds(wrong).is_err(), "{wrong}");
        }
    }

    #[test]
    fn shards_are_all_seeds_once() {
        let seeds = Seeds { first: 3, last: 12 };
        let mut next = 3;
        for part in 1..=4 {
            let range = seeds.part(Some(Shard { part, parts: 4 })).unwrap();
            assert_eq!(range.start, next);
            next = range.end;
        }
        assert_eq!(next, 13);
        assert!(seeds.part(Some(Shard { part: 1, parts: 11 })).is_err());
        assert!(shard("0/3").is_err() && shard("4/3").is_err() && shard("3").is_err());
    }

    #[test]
    fn the_help_tells_the_defaults() {
        let Plan {
            settings,
            limits,
            time,
            ..
        } = Plan::default();
        let (servers, clients) = (settings.servers, settings.clients);
        let seconds = time / 1_000_000_000;
        let tables = [limits.events, limits.writes, limits.history];
        let sizes = [limits.log, limits.payload, limits.message];
        let told = [
            vec![
                servers.to_string(),
                clients.to_string(),
                format!("{seconds}s"),
            ],
            vec!["all".to_owned()],
            sizes.map(|size| size.to_string()).to_vec(),
            tables.map(|size| size.to_string()).to_vec(),
        ];
        let help = include_str!("options.rs").lines();
        let help = help.filter(|line| line.trim_start().starts_with("///"));
        let defaults = help.filter_map(|line| line.split_once("[default: "));
        let defaults = defaults.filter_map(|(_, rest)| rest.split_once(']'));
        let defaults: Vec<&str> = defaults.map(|(default, _)| default).collect();
        assert_eq!(defaults, told.concat());
    }

    #[test]
    fn a_command_is_told_by_its_differences() {
        let mut plan = Plan::default();
        assert_eq!(asking("correct", &Setup::from(&plan)), " --node correct");
        plan.settings.servers = 5;
        plan.faults = Faults::NONE;
        plan.time = 1_000_000_000;
        let asked = asking("own", &Setup::from(&plan));
        assert_eq!(
            asked,
            " --node own --servers 5 --time 1000000us --faults none"
        );
    }
}
