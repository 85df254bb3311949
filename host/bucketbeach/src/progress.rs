//! How far a campaign is: a bar at a terminal, else a line now and then.

use std::io::{IsTerminal as _, Write as _, stderr};
use std::sync::Mutex;
use std::time::{Duration, Instant};

use indicatif::{ProgressBar, ProgressStyle};

use crate::words::{count, grouped};

/// Between two lines where there is no terminal.
const NOW_AND_THEN: Duration = Duration::from_secs(5);

/// What a campaign is made of.
#[derive(Debug, Clone, Copy)]
pub struct Things {
    /// Its runs.
    pub runs: &'static str,
    /// What they do.
    pub work: &'static str,
    /// One of what is looked for.
    pub found: &'static str,
}

/// How far a campaign is.
pub struct Progress {
    began: Instant,
    runs: u64,
    things: Things,
    bar: Option<ProgressBar>,
    counts: Mutex<Counts>,
}

struct Counts {
    done: u64,
    work: u64,
    found: u64,
    told: Instant,
}

impl Progress {
    /// Of so many runs.
    pub fn of(runs: u64, things: Things) -> Self {
        let began = Instant::now();
        let counts = Counts {
            done: 0,
            work: 0,
            found: 0,
            told: began,
        };
        Progress {
            began,
            runs,
            things,
            bar: stderr().is_terminal().then(|| bar(runs, things)),
            counts: Mutex::new(counts),
        }
    }

    /// A run is over: what it did, and what it found.
    pub fn told(&self, work: u64, found: u64) {
        let Ok(mut counts) = self.counts.lock() else {
            return;
        };
        counts.done += 1;
        counts.work += work;
        counts.found += found;
        let line = self.line(&counts);
        if let Some(bar) = &self.bar {
            bar.set_position(counts.done);
            bar.set_message(line);
        } else if counts.told.elapsed() >= NOW_AND_THEN {
            counts.told = Instant::now();
            let (done, runs) = (counts.done, self.runs);
            // A reader that has gone away needs no more.
            let _ = writeln!(stderr(), "{done} of {runs} {}, {line}", self.things.runs);
        }
    }

    /// Work a second, and what was found so far.
    fn line(&self, counts: &Counts) -> String {
        let secs = self.began.elapsed().as_secs_f64().max(1e-3);
        let rate = grouped((counts.work as f64 / secs) as u64);
        let found = count(counts.found, self.things.found);
        format!("{rate} {} a second, {found}", self.things.work)
    }

    /// The campaign is over. Returns how long it took.
    pub fn done(&self) -> Duration {
        if let Some(bar) = &self.bar {
            bar.finish_and_clear();
        }
        self.began.elapsed()
    }
}

/// The bar of a terminal.
fn bar(runs: u64, things: Things) -> ProgressBar {
    let bar = ProgressBar::new(runs);
    let template = format!("{{bar:30}} {{pos}}/{{len}} {}, {{msg}}", things.runs);
    if let Ok(style) = ProgressStyle::with_template(&template) {
        bar.set_style(style);
    }
    bar
}
