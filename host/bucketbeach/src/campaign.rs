//! `bucketbeach judge`.

use crate::files::{Lines, create};
use crate::nodes::Choice;
use crate::options::JudgeOptions;
use crate::progress::{Progress, Things};
use crate::record::{Setup, Shared};
use crate::summary::Summary;
use crate::{print, report};

/// What its progress tells.
const THINGS: Things = Things {
    runs: "seeds",
    work: "events",
    found: "violation",
};

/// Runs a campaign, writes its files and tells its verdict. Returns the exit status.
///
/// # Errors
///
/// A line about wrong usage.
pub fn judge(choice: &Choice, options: &JudgeOptions) -> Result<u8, String> {
    let node = choice.node(options.plan.node.as_deref())?;
    let plan = options.plan.plan();
    let seeds = options.seeds.part(options.shard)?;
    let report = report::file(&options.files, options.json.as_deref())?;
    let json = options.json.as_deref();
    let json = json.map(|path| create(path, options.files.force));
    let lines = json.transpose()?.map(|file| Lines::new(file, seeds.start));
    let shared = Shared {
        node: node.name.to_owned(),
        calls: choice.calls.to_owned(),
        campaign: (options.seeds.first, options.seeds.last),
        settings: Setup::from(&plan),
    };
    let progress = Progress::of(seeds.end - seeds.start, THINGS);
    let verdicts = node.campaign(&plan, seeds, &|verdict| {
        if let Some(lines) = &lines {
            lines.put(&shared.record(verdict));
        }
        progress.told(verdict.events, verdict.reported);
    });
    let took = progress.done();
    let verdicts = verdicts.map_err(|refused| refused.to_string())?;
    lines.map_or(Ok(()), Lines::close)?;
    let records = verdicts.iter().map(|verdict| shared.record(verdict));
    let summary = Summary {
        records: records.collect(),
        shared,
    };
    print(&summary.table(Some(took)));
    report::write(report, choice, &summary)?;
    Ok(summary.outcome().status())
}
