//! The whole campaign: every mode compared over many seeds, the mistakes caught, the correct node
//! not. The three numbers may be given: seeds of a mode, seeds within which a mistake must be
//! caught, seeds over which the correct node must not.

use std::env;
use std::process::ExitCode;
use std::time::Instant;

use compare::Mode;
use compare::campaign::{Outcome, compare, each, judge};
use observe::Coverage;

/// With fewer seeds of a mode, a mistake may not show and not everything that can occur is met.
const ENOUGH: u64 = 100;

fn main() -> ExitCode {
    let given = env::args().skip(1).map(|word| word.parse::<u64>());
    let Ok(given) = given.collect::<Result<Vec<u64>, _>>() else {
        eprintln!("usage: campaign [SEEDS [SEEDS-FOR-A-MISTAKE [SEEDS-OF-THE-CORRECT-NODE]]]");
        return ExitCode::from(2);
    };
    let number = |place: usize, usual| given.get(place).copied().unwrap_or(usual);
    let (seeds, within, correct) = (number(0, 500), number(1, 200), number(2, 2_000));

    println!(
        "mode                seeds    events      calls  seconds  seeds with a violation (first)"
    );
    let mut coverage = Coverage::default();
    let mut bad = Vec::new();
    for mode in Mode::ALL {
        let begun = Instant::now();
        let outcome = each(0..seeds, |seed| compare(mode, seed));
        print_row(mode.name(), &outcome, begun);
        coverage.add(&outcome.coverage);
        bad.extend(outcome.differences.iter().cloned());
        let caught = outcome.caught.range(..within).next().is_some();
        if seeds >= ENOUGH && Mode::MISTAKES.contains(&mode) && !caught {
            bad.push(format!(
                "{} is not caught within {within} seeds",
                mode.name()
            ));
        }
    }
    let begun = Instant::now();
    let outcome = each(0..correct, |seed| judge(Mode::Raft, seed));
    print_row("raft, judged only", &outcome, begun);
    if let Some(seed) = outcome.caught.first() {
        bad.push(format!("the correct node violates a check at seed {seed}"));
    }

    println!("\ncoverage\n{coverage}");
    if seeds >= ENOUGH {
        let missing = coverage.missing();
        bad.extend(missing.iter().map(|name| format!("never met: {name}")));
    }
    for problem in &bad {
        println!("NOT SO: {problem}");
    }
    if !bad.is_empty() {
        return ExitCode::FAILURE;
    }
    if seeds < ENOUGH {
        println!("every trace agrees, and the correct node violates no check");
        println!("not asked with fewer than {ENOUGH} seeds of a mode: mistakes caught, coverage");
    } else {
        println!("every trace agrees, every mistake is caught, the correct node by no check");
    }
    ExitCode::SUCCESS
}

fn print_row(name: &str, outcome: &Outcome, begun: Instant) {
    let first = match outcome.caught.first() {
        Some(seed) => format!("{} ({seed})", outcome.caught.len()),
        None => "none".to_string(),
    };
    println!(
        "{name:18} {:>6} {:>9} {:>10} {:>8.1}  {first}",
        outcome.seeds,
        outcome.events,
        outcome.calls,
        begun.elapsed().as_secs_f64(),
    );
}
