//! What was compared, counted.

use std::collections::BTreeMap;
use std::fmt::Write as _;

use port::{Limits, Settings, Stepped, area_length};
use trace::{Call, Exchange, Numbers, call_name};

use crate::words::grouped;

/// The kinds of calls.
const KINDS: u64 = 34;

/// The letters of document 01.
const LETTERS: [&str; 8] = ["S", "C", "L", "P", "M", "Q", "W", "H"];

/// Counts of what was compared.
#[derive(Debug, Clone, Default, PartialEq, Eq)]
pub struct Tally {
    modes: BTreeMap<&'static str, Row>,
    kinds: BTreeMap<u64, u64>,
    refusals: BTreeMap<u64, u64>,
    /// By [`LETTERS`].
    settings: [Ends; 8],
    areas: Ends,
}

/// Of a mode.
#[derive(Debug, Clone, Copy, Default, PartialEq, Eq)]
pub struct Row {
    /// Its runs.
    pub runs: u64,
    /// Their events.
    pub events: u64,
    /// The calls that were compared.
    pub calls: u64,
}

impl Row {
    fn add(&mut self, other: &Row) {
        self.runs += other.runs;
        self.events += other.events;
        self.calls += other.calls;
    }
}

/// The least and the greatest number that was met.
#[derive(Debug, Clone, Copy, PartialEq, Eq)]
struct Ends {
    least: u64,
    greatest: u64,
}

impl Default for Ends {
    fn default() -> Self {
        Ends {
            least: u64::MAX,
            greatest: 0,
        }
    }
}

impl Ends {
    fn meet(&mut self, other: Ends) {
        self.least = self.least.min(other.least);
        self.greatest = self.greatest.max(other.greatest);
    }

    fn met(&mut self, number: u64) {
        self.meet(Ends {
            least: number,
            greatest: number,
        });
    }

    fn told(self) -> String {
        format!("{} to {}", grouped(self.least), grouped(self.greatest))
    }
}

impl Tally {
    /// The calls of one run that were compared.
    pub fn of(mode: &'static str, exchanges: &[Exchange]) -> Self {
        let mut tally = Tally::default();
        let mut row = Row {
            runs: 1,
            calls: exchanges.len() as u64,
            ..Row::default()
        };
        for Exchange { call, answer } in exchanges {
            *tally.kinds.entry(call.number()).or_default() += 1;
            match answer.numbers.refusal() {
                0 => tally.started(call),
                refusal => *tally.refusals.entry(refusal).or_default() += 1,
            }
            if let Numbers::Stepped(Stepped { taken: 1, .. }) = answer.numbers {
                row.events += 1;
            }
        }
        tally.modes.insert(mode, row);
        tally
    }

    /// An accepted start has settings.
    fn started(&mut self, call: &Call) {
        let Call::Start {
            settings, limits, ..
        } = call
        else {
            return;
        };
        for (ends, number) in self.settings.iter_mut().zip(numbers(settings, limits)) {
            ends.met(number);
        }
        self.areas.met(area_length(settings, limits));
    }

    /// Adds other runs.
    pub fn add(&mut self, other: &Tally) {
        for (mode, row) in &other.modes {
            self.modes.entry(mode).or_default().add(row);
        }
        for (kind, calls) in &other.kinds {
            *self.kinds.entry(*kind).or_default() += calls;
        }
        for (refusal, calls) in &other.refusals {
            *self.refusals.entry(*refusal).or_default() += calls;
        }
        for (ends, others) in self.settings.iter_mut().zip(other.settings) {
            ends.meet(others);
        }
        self.areas.meet(other.areas);
    }

    /// All runs.
    pub fn whole(&self) -> Row {
        let mut whole = Row::default();
        self.modes.values().for_each(|row| whole.add(row));
        whole
    }

    /// The tables.
    pub fn table(&self) -> String {
        let mut text = self.by_mode();
        text += &self.by_kind();
        let refusals = self.refusals.iter();
        let refusals = refusals.map(|(number, calls)| format!("{number}: {}", grouped(*calls)));
        let refusals = refusals.collect::<Vec<_>>().join(", ");
        let settings = LETTERS.iter().zip(self.settings);
        let settings = settings.map(|(letter, ends)| format!("{letter} {}", ends.told()));
        let settings = settings.collect::<Vec<_>>().join(", ");
        let areas = self.areas.told();
        let _ = write!(
            text,
            "\nrefusals   {refusals}\nsettings   {settings}\nareas      {areas} bytes\n"
        );
        text
    }

    fn by_mode(&self) -> String {
        let mut text = "mode                    runs       events          calls\n".to_owned();
        let whole = [("all", self.whole())];
        let rows = self.modes.iter().map(|(mode, row)| (*mode, *row));
        for (mode, row) in rows.chain(whole) {
            let (runs, events, calls) =
                (grouped(row.runs), grouped(row.events), grouped(row.calls));
            let _ = writeln!(text, "{mode:<20} {runs:>7} {events:>12} {calls:>14}");
        }
        text
    }

    /// In two columns.
    fn by_kind(&self) -> String {
        let cell = |kind: u64| {
            let calls = self.kinds.get(&kind).copied().unwrap_or_default();
            let name = call_name(kind).unwrap_or_default();
            format!("{kind:>2} {name:<21} {:>13}", grouped(calls))
        };
        let half = KINDS / 2;
        let rows = (1..=half).map(|kind| format!("{}    {}\n", cell(kind), cell(kind + half)));
        let head = format!("{:<24} {:>13}", "call", "compared");
        format!("\n{head}    {head}\n") + &rows.collect::<String>()
    }
}

/// In the order of the letters.
fn numbers(settings: &Settings, limits: &Limits) -> [u64; 8] {
    [
        settings.servers,
        settings.clients,
        limits.log,
        limits.payload,
        limits.message,
        limits.events,
        limits.writes,
        limits.history,
    ]
}
