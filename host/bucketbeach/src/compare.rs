//! `bucketbeach compare`.

use std::num::NonZero;
use std::sync::atomic::{AtomicU64, Ordering};
use std::thread;
use std::time::Duration;

use compare::{Mode, compared};
use trace::Tables;

use crate::difference::{told, whereabouts};
use crate::nodes::Choice;
use crate::options::CompareOptions;
use crate::progress::{Progress, Things};
use crate::tally::Tally;
use crate::words::{count, grouped};
use crate::{print, program};

/// Of a run with the largest tables, so many calls unless it is asked otherwise: each takes long.
const FIRST_CALLS: u64 = 200;

/// Runs at a time with the largest tables: each has a gigabyte.
const FEW: usize = 2;

/// What its progress tells.
const THINGS: Things = Things {
    runs: "runs",
    work: "calls",
    found: "difference",
};

/// Makes runs of the reference again at the calls. Returns the exit status.
///
/// # Errors
///
/// A line about wrong usage.
pub fn compare(choice: &Choice, options: &CompareOptions) -> Result<u8, String> {
    let modes = modes(&options.mode)?;
    let asked = Asked { choice, options };
    if let [mode] = modes[..]
        && options.seeds.first == options.seeds.last
    {
        let run = asked.run(mode, options.seeds.first);
        print(&run.line(choice));
        return Ok(run.differs.is_some().into());
    }
    asked.campaign(&modes)
}

/// The modes of a name.
fn modes(name: &str) -> Result<Vec<Mode>, String> {
    if name == "all" {
        return Ok(Mode::ALL.to_vec());
    }
    let names = Mode::ALL.map(Mode::name).join(", ");
    let unknown = || format!("no mode is called '{name}'; there are {names}, all");
    Mode::named(name).map(|mode| vec![mode]).ok_or_else(unknown)
}

/// What was asked for.
#[derive(Clone, Copy)]
struct Asked<'a> {
    choice: &'a Choice,
    options: &'a CompareOptions,
}

/// A run that was compared.
struct Compared {
    mode: Mode,
    seed: u64,
    tally: Tally,
    /// Where it differs, and the story of it.
    differs: Option<String>,
}

impl Compared {
    fn line(&self, choice: &Choice) -> String {
        let (mode, seed) = (self.mode.name(), self.seed);
        match &self.differs {
            Some(story) => format!("{mode} {seed} DIFFERS at {story}"),
            None => format!("{mode} {seed}: {}\n", agreed(&self.tally, choice)),
        }
    }
}

/// That nothing differs.
fn agreed(tally: &Tally, choice: &Choice) -> String {
    let row = tally.whole();
    let (calls, events) = (count(row.calls, "call"), count(row.events, "event"));
    format!(
        "no difference: {calls} compared at {}, {events}",
        choice.calls
    )
}

impl Asked<'_> {
    /// One run.
    fn run(self, mode: Mode, seed: u64) -> Compared {
        let limits = self.options.limits;
        let first = (limits == Tables::Largest).then_some(FIRST_CALLS);
        let calls = self.options.calls.or(first);
        let calls = calls.map(|calls| usize::try_from(calls).unwrap_or(usize::MAX));
        let trace = compared(mode, seed, limits, calls);
        let difference = (self.choice.replay)(&trace).err();
        let made = match &difference {
            Some(difference) => difference.place + 1,
            None => trace.exchanges.len(),
        };
        let story = difference.map(|difference| {
            let at = whereabouts(&trace, difference.place);
            let story = told(&trace, &difference, self.options.told.before);
            format!("{at}\n{story}")
        });
        Compared {
            mode,
            seed,
            tally: Tally::of(mode.name(), &trace.exchanges[..made]),
            differs: story,
        }
    }

    /// Every seed of every mode, on every processor.
    fn campaign(self, modes: &[Mode]) -> Result<u8, String> {
        let seeds = self.options.seeds.part(None)?;
        let runs = (seeds.end - seeds.start).saturating_mul(modes.len() as u64);
        let progress = Progress::of(runs, THINGS);
        let next = AtomicU64::new(0);
        let worker = || {
            let (mut tally, mut differ) = (Tally::default(), Vec::new());
            loop {
                let number = next.fetch_add(1, Ordering::Relaxed);
                if number >= runs {
                    return (tally, differ);
                }
                let mode = modes[(number % modes.len() as u64) as usize];
                let run = self.run(mode, seeds.start + number / modes.len() as u64);
                progress.told(run.tally.whole().calls, run.differs.is_some().into());
                tally.add(&run.tally);
                differ.extend(run.differs.is_some().then_some((number, run)));
            }
        };
        let (mut tally, mut differ) = (Tally::default(), Vec::new());
        thread::scope(|scope| {
            let handles: Vec<_> = (0..self.workers()).map(|_| scope.spawn(worker)).collect();
            for handle in handles {
                let done = handle.join().map_err(|_| "a run could not be made")?;
                tally.add(&done.0);
                differ.extend(done.1);
            }
            Ok::<(), &str>(())
        })?;
        differ.sort_by_key(|(number, _)| *number);
        let differ: Vec<Compared> = differ.into_iter().map(|(_, run)| run).collect();
        print(&self.verdict(&tally, &differ, progress.done()));
        Ok((!differ.is_empty()).into())
    }

    fn workers(self) -> usize {
        let all = thread::available_parallelism().map_or(1, NonZero::get);
        match self.options.limits {
            Tables::Largest => all.min(FEW),
            _ => all,
        }
    }

    /// The tables, then that nothing differs, or the first run that does and the commands for all.
    fn verdict(self, tally: &Tally, differ: &[Compared], took: Duration) -> String {
        let limits = self.options.limits.name();
        let mut text = tally.table();
        text += &format!(
            "limits     {limits}\ntook       {:.1} s\n\n",
            took.as_secs_f64()
        );
        let Some(first) = differ.first() else {
            return text + &agreed(tally, self.choice) + "\n";
        };
        let runs = count(tally.whole().runs, "run");
        text += &format!("{} of {runs} differ:\n", grouped(differ.len() as u64));
        let calls = self.options.calls;
        let calls = calls.map_or_else(String::new, |calls| format!(" --calls {calls}"));
        for run in differ {
            let (program, mode, seed) = (program(), run.mode.name(), run.seed);
            text += &format!("  {program} compare {mode} {seed} --limits {limits}{calls}\n");
        }
        text + "\n" + &first.line(self.choice)
    }
}

#[cfg(all(test, feature = "runs"))]
mod tests {
    use super::*;
    use crate::Linked;
    use crate::options::{Options, Task};
    use clap::Parser as _;
    use port::Done;
    use trace::{Call, Difference, Options as Replaying, Trace, replay};

    /// A port that lies in one answer, seen from the other side: the trace has another answer to the
    /// first call of an election timer.
    fn lying(trace: &Trace) -> Result<usize, Box<Difference>> {
        let mut trace = trace.clone();
        let timer = |call: &Call| matches!(call, Call::OutputSetTimer { .. });
        let exchanges = trace.exchanges.iter_mut();
        if let Some(exchange) = exchanges.skip(500).find(|exchange| timer(&exchange.call)) {
            exchange.answer = Done { refusal: 10 }.into();
        }
        replay(&trace, &mut Linked::default(), Replaying::default())
    }

    fn options(line: &str) -> CompareOptions {
        match Options::try_parse_from(line.split(' ')).map(|options| options.task) {
            Ok(Task::Compare(options)) => options,
            other => panic!("{line}: {other:?}"),
        }
    }

    #[test]
    fn a_lie_is_found_at_its_place() {
        let choice = Choice {
            replay: lying,
            ..Choice::embedded::<Linked>()
        };
        let options = options("b compare raft 1..2 --before 3");
        let asked = Asked {
            choice: &choice,
            options: &options,
        };
        let trace = compared(Mode::Raft, 2, Tables::Smallest, None);
        let place = lying(&trace).expect_err("it lies").place;
        let run = asked.run(Mode::Raft, 2);
        let story = run.line(&choice);
        let at = format!("raft 2 DIFFERS at call {} ", grouped(place as u64));
        assert!(story.starts_with(&at), "{story}");
        assert_eq!(story.lines().count(), 1 + 3 + 1 + 2, "{story}");
        assert_eq!(run.tally.whole().calls, place as u64 + 1);
        let told = asked.verdict(&run.tally.clone(), &[run], Duration::ZERO);
        assert!(told.contains("1 of 1 run differ"), "{told}");
        assert!(
            told.contains(" compare raft 2 --limits smallest\n"),
            "{told}"
        );
        assert_eq!(asked.campaign(&[Mode::Raft]), Ok(1));
    }

    #[test]
    fn the_help_names_every_mode_and_size() {
        let help = Options::try_parse_from(["b", "compare", "--help"]);
        let help = help.expect_err("it is a text").to_string();
        let sizes = Tables::ALL.map(Tables::name);
        for name in Mode::ALL.map(Mode::name).iter().chain(&sizes) {
            assert!(help.contains(name), "{name}: {help}");
        }
    }
}
