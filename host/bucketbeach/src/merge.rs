//! `bucketbeach merge`.

use std::collections::BTreeMap;
use std::fs::File;
use std::io::{BufRead as _, BufReader};
use std::path::Path;

use crate::files::{Lines, create};
use crate::nodes::Choice;
use crate::options::MergeOptions;
use crate::record::{Record, Shared};
use crate::summary::Summary;
use crate::{print, report};

/// Joins the lines of a campaign's shards, and tells its verdict. Returns the exit status.
///
/// # Errors
///
/// A line about files that are not the whole of one campaign.
pub fn merge(choice: &Choice, options: &MergeOptions) -> Result<u8, String> {
    let mut joined = Joined::default();
    for path in &options.lines {
        joined.file(path)?;
    }
    let summary = joined.whole()?;
    let report = report::file(&options.files, options.json.as_deref())?;
    if let Some(path) = &options.json {
        let lines = Lines::new(
            create(path, options.files.force)?,
            summary.shared.campaign.0,
        );
        summary.records.iter().for_each(|record| lines.put(record));
        lines.close()?;
    }
    print(&summary.table(None));
    report::write(report, choice, &summary)?;
    Ok(summary.outcome().status())
}

/// The runs so far, by seed.
#[derive(Default)]
struct Joined {
    shared: Option<Shared>,
    records: BTreeMap<u64, Record>,
}

impl Joined {
    /// The lines of a file.
    fn file(&mut self, path: &Path) -> Result<(), String> {
        let name = path.display();
        let cannot = |error| format!("{name} cannot be read: {error}");
        let file = BufReader::new(File::open(path).map_err(cannot)?);
        for (at, line) in file.lines().enumerate() {
            let line = line.map_err(cannot)?;
            let place = format!("{name}, line {}", at + 1);
            let record = serde_json::from_str(&line)
                .map_err(|error| format!("{place} is no run of `judge --json`: {error}"))?;
            self.record(record)
                .map_err(|wrong| format!("{place}: {wrong}"))?;
        }
        Ok(())
    }

    /// A run: of the same campaign as the others, and the same where its seed was there before.
    fn record(&mut self, record: Record) -> Result<(), String> {
        let shared = Shared::from(&record);
        let known = self.shared.get_or_insert_with(|| shared.clone());
        if *known != shared {
            return Err(difference(known, &shared));
        }
        let (first, last) = shared.campaign;
        let seed = record.seed;
        if !(first..=last).contains(&seed) {
            return Err(format!(
                "seed {seed} is not among its campaign's {first}..{last}"
            ));
        }
        match self.records.get(&seed) {
            Some(before) if *before != record => Err(format!(
                "seed {seed} was there before, with another outcome"
            )),
            _ => {
                self.records.insert(seed, record);
                Ok(())
            }
        }
    }

    /// The campaign, where every seed is there.
    fn whole(self) -> Result<Summary, String> {
        let shared = self.shared.ok_or("the files hold no runs")?;
        let (first, last) = shared.campaign;
        let missing = (first..=last).find(|seed| !self.records.contains_key(seed));
        if let Some(from) = missing {
            let next = self.records.range(from..).next();
            let to = next.map_or(last, |(seed, _)| seed - 1);
            return Err(format!(
                "seeds {from}..{to} of {first}..{last} are missing: a shard is not here"
            ));
        }
        let records = self.records.into_values().collect();
        Ok(Summary { shared, records })
    }
}

/// What two runs of different campaigns differ in.
fn difference(known: &Shared, other: &Shared) -> String {
    let (what, before, here) = if known.node != other.node {
        ("node", known.node.clone(), other.node.clone())
    } else if known.calls != other.calls {
        ("judge", known.calls.clone(), other.calls.clone())
    } else if known.campaign != other.campaign {
        let seeds = |(first, last)| format!("{first}..{last}");
        ("seeds", seeds(known.campaign), seeds(other.campaign))
    } else {
        return "another campaign: its settings differ from those before".to_owned();
    };
    format!("another campaign: the {what} was {before} and is {here}")
}
