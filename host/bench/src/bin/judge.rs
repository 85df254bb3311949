//! How fast the judge is: the default plan with the embedded Raft, at the reference, at the calls
//! over its modules and, with the feature `exported`, at the proved calls. Run it in a release
//! build; the number of seeds may be given.

use std::env;
use std::time::Instant;

use compare::reference;
use judge::{Plan, Verdict, judge};
use node::{Consensus, Correct, Raft};
use nodes::Adapted;
use port::Port;
use stepwise::Stepwise;

fn main() {
    let given = env::args().nth(1).and_then(|word| word.parse().ok());
    let seeds = given.unwrap_or(20);
    println!("| the default plan, {seeds} seeds, one thread | events | events a second |");
    println!("|---|---|---|");
    row("the reference", seeds, |plan, seed| {
        reference::judge::<Adapted<Raft<Correct>>>(plan, seed)
    });
    row(
        "calls over its modules",
        seeds,
        at::<Raft<Correct>, Stepwise>,
    );
    #[cfg(feature = "exported")]
    row(
        "the proved calls",
        seeds,
        at::<Raft<Correct>, library::Library>,
    );
}

fn at<N: Consensus, P: Port + Default>(plan: &Plan, seed: u64) -> Verdict {
    judge::<N, P>(plan, seed, &mut ()).expect("the plan is accepted")
}

fn row(name: &str, seeds: u64, run: impl Fn(&Plan, u64) -> Verdict) {
    let plan = Plan::default();
    let begun = Instant::now();
    let verdicts: Vec<Verdict> = (0..seeds).map(|seed| run(&plan, seed)).collect();
    let seconds = begun.elapsed().as_secs_f64();
    let events: u64 = verdicts.iter().map(|verdict| verdict.events).sum();
    let raised: usize = verdicts.iter().map(|verdict| verdict.raised.len()).sum();
    let rate = events as f64 / seconds;
    println!("| {name}, {raised} times raised | {events} | {rate:.0} |");
}
