//! How long each call takes: the exported one, or what stands behind its gate, beside the reference's own modules. Run it in a release build.

use std::time::{Duration, Instant};

use compare::{Mode, record};
use port::{Limits, Port, area_length};
use stepwise::Stepwise;
use trace::{Call, Trace};

#[cfg(feature = "behind")]
mod behind;

/// Runs of the Raft whose calls are made.
const SEEDS: u64 = 12;

/// The limits of an area of 404 KB at three servers and three clients.
const LARGER: Limits = Limits {
    log: 256,
    payload: 64,
    message: 512,
    events: 256,
    writes: 32,
    history: 256,
};

/// A kind of call: how often it was made, and the time that it took in all.
#[derive(Clone, Copy, Default)]
struct Spent {
    calls: u32,
    time: Duration,
}

impl Spent {
    fn nanos(self) -> f64 {
        self.time.as_nanos() as f64 / f64::from(self.calls.max(1))
    }
}

/// What each kind of call took, by its number, and how many events were taken.
struct Spending {
    by_call: [Spent; 35],
    events: u64,
}

fn main() {
    let traces: Vec<Trace> = (0..SEEDS)
        .map(|seed| record(Mode::Raft, seed).trace)
        .collect();
    println!("| limits | call | made | ns | the reference's modules, ns | times |");
    println!("|---|---|---|---|---|---|");
    table("smallest", &traces);
    let larger: Vec<Trace> = traces.iter().filter_map(with_limits).collect();
    table("404 KB", &larger);
}

/// The same run under the larger limits, where they suffice.
fn with_limits(trace: &Trace) -> Option<Trace> {
    let mut trace = trace.clone();
    let Call::Start { limits, .. } = &mut trace.exchanges[0].call else {
        return None;
    };
    let fits = limits.log <= LARGER.log
        && limits.payload <= LARGER.payload
        && limits.message <= LARGER.message
        && limits.events <= LARGER.events
        && limits.writes <= LARGER.writes
        && limits.history <= LARGER.history;
    **limits = LARGER;
    fits.then_some(trace)
}

fn table(limits: &str, traces: &[Trace]) {
    let ours = spend(traces, measured);
    let theirs = spend(traces, |_| Stepwise::default());
    for (number, (ours, theirs)) in ours.by_call.iter().zip(theirs.by_call).enumerate() {
        if ours.calls > 0 {
            let (ours_ns, theirs_ns) = (ours.nanos(), theirs.nanos());
            let times = ours_ns / theirs_ns;
            println!(
                "| {limits} | {number} | {} | {ours_ns:.0} | {theirs_ns:.0} | {times:.1} |",
                ours.calls
            );
        }
    }
    let rate = |spending: &Spending| {
        let acts = spending.by_call[..20].iter().map(|spent| spent.time);
        spending.events as f64 / acts.sum::<Duration>().as_secs_f64()
    };
    println!(
        "| {limits} | events a second, without the node and the reads | {} | {:.0} | {:.0} | |",
        ours.events,
        rate(&ours),
        rate(&theirs)
    );
}

/// The port that is measured.
#[cfg(feature = "exported")]
fn measured(_trace: &Trace) -> library::Library {
    library::Library
}

/// The port that is measured.
#[cfg(feature = "behind")]
fn measured(trace: &Trace) -> behind::Behind {
    behind::Behind::new(trace)
}

/// The port that is measured, where no static library is at hand.
#[cfg(not(any(feature = "exported", feature = "behind")))]
fn measured(_trace: &Trace) -> Stepwise {
    Stepwise::default()
}

/// Makes every call of the traces, each run three times, and takes for each kind of call the least of the three.
fn spend<P: Port>(traces: &[Trace], port: impl Fn(&Trace) -> P) -> Spending {
    let mut all = Spending {
        by_call: [Spent::default(); 35],
        events: 0,
    };
    for trace in traces {
        let rounds: Vec<Spending> = (0..3).map(|_| one_run(trace, port(trace))).collect();
        for (number, spent) in all.by_call.iter_mut().enumerate() {
            let least = rounds
                .iter()
                .map(|round| round.by_call[number])
                .min_by_key(|round| round.time);
            let least = least.expect("there is a round");
            spent.calls += least.calls;
            spent.time += least.time;
        }
        all.events += rounds[0].events;
    }
    all
}

fn one_run(trace: &Trace, mut port: impl Port) -> Spending {
    let mut spending = Spending {
        by_call: [Spent::default(); 35],
        events: 0,
    };
    let Call::Start {
        settings, limits, ..
    } = &trace.exchanges[0].call
    else {
        panic!("a run begins with a start");
    };
    let mut area = vec![0; area_length(settings, limits) as usize];
    let mut buffer = vec![0; limits.message.max(limits.payload) as usize];
    for exchange in &trace.exchanges {
        if let Call::ChaosSchedule { .. } = exchange.call {
            continue;
        }
        let begun = Instant::now();
        let answer = exchange.call.make(&mut port, &mut area, &mut buffer);
        let time = begun.elapsed();
        assert_eq!(
            answer.numbers.refusal(),
            exchange.answer.numbers.refusal(),
            "{:?}",
            exchange.call
        );
        let spent = &mut spending.by_call[exchange.call.number() as usize];
        spent.calls += 1;
        spent.time += time;
        if let trace::Numbers::Stepped(stepped) = answer.numbers {
            spending.events += stepped.taken;
        }
    }
    spending
}
