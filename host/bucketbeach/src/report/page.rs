//! The page around the picture.

use super::html::{around, escape, table, text};
use super::picture::{legend, overview, picture, stripes, window};
use super::timeline::{Note, Timeline};
use crate::record::Record;
use crate::summary::{Outcome, Summary};
use crate::words::{CHECKS, count, duration, exact, grouped, seconds};

/// Rows of the table of failing seeds.
const MOST_ROWS: usize = 200;
/// Lines of what led to the violation.
const MOST_NOTES: usize = 16;
/// The check that is made at the end of a run.
const DURABILITY: usize = 4;
/// The check that no run reports.
const LIVENESS: usize = 5;

/// Widths of the picture: for a screen, for paper, for a phone.
const WIDTHS: [(&str, u64); 3] = [("wide", 1_120), ("paper", 680), ("phone", 336)];

/// The page.
pub fn page(summary: &Summary, timeline: Option<&Timeline>) -> String {
    let title = format!("{}: {}", summary.shared.node, summary.outcome().word());
    let head = [
        "<meta charset=\"utf-8\">",
        "<meta name=\"viewport\" content=\"width=device-width, initial-scale=1\">",
        &text("title", &format!("Bucketbeach: {title}")),
        &around("style", include_str!("style.css")),
    ];
    let main = [
        header(summary),
        numbers(summary),
        settings(summary),
        checks(summary),
        faults(summary),
        failing(summary),
        pictured(summary, timeline),
        again(summary),
        rests_on(summary),
    ];
    let body = stripes() + &around("main", &main.concat());
    let head = around("head", &head.concat());
    format!(
        "<!doctype html>\n<html lang=\"en\">{head}{}</html>\n",
        around("body", &body)
    )
}

/// A part with a heading.
fn section(class: &str, heading: &str, content: &str) -> String {
    let tag = format!("section class=\"{class}\"");
    around(&tag, &(text("h2", heading) + content))
}

/// The verdict.
fn header(summary: &Summary) -> String {
    let class = match summary.outcome() {
        Outcome::Passed => "passed",
        Outcome::Failed => "failed",
        Outcome::Faulted => "faulted",
    };
    let sentence = capital(&summary.sentence());
    let word = text("strong", summary.outcome().word());
    let verdict = around(
        &format!("p class=\"verdict {class}\" id=\"verdict\""),
        &(word + " " + &escape(&sentence)),
    );
    let kind = text(
        "p class=\"kind\"",
        "Bucketbeach · a node judged under crashes",
    );
    around(
        "header",
        &(kind + &text("h1", &summary.shared.node) + &verdict),
    )
}

/// What was done, in numbers.
fn numbers(summary: &Summary) -> String {
    let sum = |of: fn(&Record) -> u64| grouped(summary.sum(of));
    let facts = [
        ("runs", grouped(summary.records.len() as u64)),
        ("failing runs", grouped(summary.failing().count() as u64)),
        ("violations", sum(|record| record.reported)),
        ("events", sum(|record| record.events)),
        ("syncs", sum(|record| record.syncs)),
        ("messages", sum(|record| record.metrics.messages)),
        ("acknowledged", sum(|record| record.metrics.client_replies)),
        ("simulated", seconds(summary.sum(|record| record.time))),
    ];
    let fact = |(name, value): &(&str, String)| {
        let tag = format!("dd data-number=\"{}\"", escape(name));
        around("div", &(text("dt", name) + &text(&tag, value)))
    };
    around(
        "dl class=\"numbers\"",
        &facts.iter().map(fact).collect::<String>(),
    )
}

/// The settings.
fn settings(summary: &Summary) -> String {
    let setup = &summary.shared.settings;
    let range = |from, to| format!("{} to {}", duration(from), duration(to));
    let faults = match setup.faults.join(", ") {
        none if none.is_empty() => "none".to_owned(),
        faults => faults,
    };
    let tables = format!(
        "{} events, {} writes, {} history",
        setup.events, setup.writes, setup.history
    );
    let facts = [
        ("node", summary.shared.node.clone()),
        ("judged by", summary.shared.calls.clone()),
        ("seeds", summary.seeds()),
        ("servers", setup.servers.to_string()),
        ("clients", setup.clients.to_string()),
        ("time of a run", duration(setup.time)),
        ("faults", faults),
        (
            "election timeout",
            range(setup.election_timeout_min, setup.election_timeout_max),
        ),
        ("heartbeat every", duration(setup.heartbeat_interval)),
        ("mean message delay", duration(setup.one_way_delay)),
        ("log", count(setup.log, "place")),
        ("payload", count(setup.payload, "byte")),
        ("message", count(setup.message, "byte")),
        ("tables at first", tables),
    ];
    let fact =
        |(name, value): &(&str, String)| around("div", &(text("dt", name) + &text("dd", value)));
    let list = around(
        "dl class=\"settings\"",
        &facts.iter().map(fact).collect::<String>(),
    );
    section("setup", "Settings", &list)
}

/// Every check, and whether it held.
fn checks(summary: &Summary) -> String {
    let failed = summary.checks();
    let row = |(number, (name, says)): (usize, &(&str, &str))| {
        let row = failed.iter().find(|row| row.check == number as u64);
        let mut result = match row {
            None if summary.unkept() > 0 => "not among the violations kept".to_owned(),
            None if summary.outcome() == Outcome::Faulted => "held as far as checked".to_owned(),
            None => "held".to_owned(),
            Some(row) => {
                let runs = count(row.runs, "run");
                format!("FAILED in {runs}, first with seed {}", row.seed)
            }
        };
        if number == DURABILITY && summary.unsettled() > 0 {
            let runs = count(summary.unsettled(), "run");
            result += &format!("; not checked in {runs} without a quiet end");
        }
        vec![(*name).to_owned(), (*says).to_owned(), result]
    };
    let shown = CHECKS
        .iter()
        .enumerate()
        .filter(|(number, _)| *number != LIVENESS);
    let rows: Vec<_> = shown.map(row).collect();
    section(
        "checks",
        "Checks",
        &table("checks", &["check", "says", "result"], &rows),
    )
}

/// Where the node broke its contract.
fn faults(summary: &Summary) -> String {
    let row = |record: &Record| {
        let fault = record.fault.as_ref()?;
        Some(vec![
            record.seed.to_string(),
            exact(fault.time),
            fault.server.to_string(),
            fault.call.clone(),
            fault.about.clone(),
        ])
    };
    let rows: Vec<_> = summary.faulty().filter_map(row).take(MOST_ROWS).collect();
    if rows.is_empty() {
        return String::new();
    }
    let about = text(
        "p",
        "The node broke its contract: these runs ended there, unchecked.",
    );
    let columns = ["seed", "time", "server", "call", "what is wrong"];
    section(
        "faults",
        "The node's faults",
        &(about + &table("faults", &columns, &rows)),
    )
}

/// The failing seeds.
fn failing(summary: &Summary) -> String {
    let row = |record: &Record| {
        let first = record.violations.first();
        let told = |of: fn(&crate::record::Broken) -> String| first.map(of).unwrap_or_default();
        vec![
            record.seed.to_string(),
            told(|broken| seconds(broken.time)),
            told(|broken| broken.name.clone()),
            told(|broken| broken.text.clone()),
            grouped(record.reported),
        ]
    };
    let rows: Vec<_> = summary.failing().take(MOST_ROWS).map(row).collect();
    let columns = ["seed", "time", "check", "first violation", "violations"];
    let more = summary.failing().count().saturating_sub(rows.len());
    let content = match (rows.is_empty(), more) {
        (true, _) => text("p", "None."),
        (false, 0) => table("seeds", &columns, &rows),
        (false, _) => {
            let more = format!(
                "And {} more, in the JSON lines.",
                count(more as u64, "seed")
            );
            table("seeds", &columns, &rows) + &text("p", &more)
        }
    };
    section("failing", "Failing seeds", &content)
}

/// The telling run in time, and what led to its violation.
fn pictured(summary: &Summary, timeline: Option<&Timeline>) -> String {
    let record = summary.telling();
    let heading = format!("Seed {} in time", record.seed);
    let Some(timeline) = timeline else {
        let why =
            "This run is not drawn: the command that made this page has not its node or its calls.";
        return section("picture", &heading, &text("p", why));
    };
    let shown = window(timeline);
    let whole = (shown.0 > 0 || shown.1 < timeline.end).then(|| {
        let about = format!("The whole run, {}:", seconds(timeline.end));
        text("p", &about) + &at_each_width(|width| overview(timeline, width))
    });
    let strips = at_each_width(|width| picture(timeline, shown, width));
    let content = [
        whole.unwrap_or_default(),
        text("p", &caption(timeline, shown)),
        strips,
        legend(),
        led(timeline, shown.0),
    ];
    section("picture", &heading, &content.concat())
}

/// A drawing for each width; the style shows the one that fits.
fn at_each_width(drawn: impl Fn(u64) -> String) -> String {
    let strips = |(class, width): &(&str, u64)| {
        around(&format!("div class=\"strips {class}\""), &drawn(*width))
    };
    WIDTHS.iter().map(strips).collect()
}

/// What the picture shows.
fn caption(timeline: &Timeline, (from, to): (u64, u64)) -> String {
    let Some((time, name)) = timeline.violations.first() else {
        return format!("From the start to {}:", seconds(to));
    };
    let at = seconds(*time);
    if from > 0 {
        let before = duration(time.saturating_sub(from) / 10_000_000 * 10_000_000);
        format!("The last {before} before the first violation ({name}, {at}):")
    } else {
        format!("From the start to the first violation ({name}, {at}):")
    }
}

/// The lines before the first violation, and its own.
fn led(timeline: &Timeline, from: u64) -> String {
    let violation = timeline
        .notes
        .iter()
        .position(|note| note.text.starts_with("VIOLATED"));
    let Some(end) = violation else {
        return String::new();
    };
    let before = &timeline.notes[(end + 1).saturating_sub(MOST_NOTES)..=end];
    let shown = before.iter().filter(|note| note.time >= from);
    let row = |note: &Note| {
        let who = match note.server {
            0 => "network".to_owned(),
            server => format!("server {server}"),
        };
        vec![exact(note.time), who, note.text.clone()]
    };
    let rows: Vec<_> = shown.map(row).collect();
    text("h3", "What led to it") + &table("led", &["time", "where", "what"], &rows)
}

/// How to see it again.
fn again(summary: &Summary) -> String {
    let about = text(
        "p",
        "A seed gives the same run each time. Its story, event by event:",
    );
    section(
        "again",
        "See it again",
        &(about + &around("pre", &text("code", &summary.again()))),
    )
}

/// What the verdict rests on.
fn rests_on(summary: &Summary) -> String {
    let calls = &summary.shared.calls;
    let proved = calls == crate::PROVED;
    let first = if proved {
        "Every answer of the simulator came from the proved library: each call is proved equal to its definition, refused calls change nothing, and a server that starts finds what its synced inputs wrote."
    } else {
        "The simulator's answers did not come from the proved library, so this page is for tests and not for a release."
    };
    let second = "A campaign shows what it met: violations are real, and a pass says that these seeds met none. Trusted are the prover, the compilers, and the Rust host around the library.";
    let judged = format!("Judged by {calls}.");
    let content = text("p", &judged) + &text("p", first) + &text("p", second);
    section("rests", "What this rests on", &content)
}

/// A sentence with a capital.
fn capital(sentence: &str) -> String {
    let mut letters = sentence.chars();
    let first = letters
        .next()
        .map(|letter| letter.to_uppercase().to_string());
    first.unwrap_or_default() + letters.as_str()
}
