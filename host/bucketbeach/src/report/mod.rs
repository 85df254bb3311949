//! The report page: one HTML file, for the release meeting.

mod html;
mod page;
mod picture;
mod timeline;

use std::fs::File;
use std::io::Write as _;
use std::path::Path;

use crate::files::{create, free};
use crate::nodes::Choice;
use crate::options::FileOptions;
use crate::summary::Summary;
use timeline::Recorder;

pub(crate) use timeline::Timeline;

/// Makes the report's file before anything is run. `json` is the other file that is asked for.
///
/// # Errors
///
/// A line that says why not.
pub fn file(options: &FileOptions, json: Option<&Path>) -> Result<Option<File>, String> {
    let report = options.report.as_deref();
    free(json, report, options.force)?;
    report.map(|path| create(path, options.force)).transpose()
}

/// Writes the page, where one is asked for.
///
/// # Errors
///
/// A line that says why not.
pub fn write(file: Option<File>, choice: &Choice, summary: &Summary) -> Result<(), String> {
    let Some(mut file) = file else {
        return Ok(());
    };
    let page = page::page(summary, pictured(choice, summary).as_ref());
    let written = file.write_all(page.as_bytes());
    written.map_err(|error| format!("the report cannot be written: {error}"))
}

/// Makes the telling run again, and notes it in time. None where its node is not at hand, or what
/// it shows is another run than the one that was judged.
fn pictured(choice: &Choice, summary: &Summary) -> Option<Timeline> {
    let shared = &summary.shared;
    let record = summary.telling();
    if choice.calls != shared.calls {
        return None;
    }
    let node = choice.node(Some(&shared.node)).ok()?;
    let mut recorder = Recorder::new(shared.settings.servers);
    let plan = shared.settings.plan();
    let verdict = node.told(&plan, record.seed, &mut recorder).ok()?;
    let same = shared.record(&verdict) == *record;
    let mut timeline = recorder.timeline(record.time);
    if let Some(fault) = &record.fault {
        timeline.broken(fault.time, fault.server, "the node's fault", &fault.about);
    }
    same.then_some(timeline)
}
