//! Writes the trace of a mode and a seed to a file.

use std::process::ExitCode;
use std::{env, fs};

use compare::{Mode, beginning, record};
use trace::Trace;

fn main() -> ExitCode {
    let words: Vec<String> = env::args().skip(1).collect();
    let Some((trace, file)) = asked(&words) else {
        eprintln!("usage: write_trace MODE SEED [CALLS STILL] FILE");
        eprintln!("CALLS: how many exchanges, with refused calls in between");
        eprintln!("STILL: one in so many calls that change nothing is kept");
        return ExitCode::from(2);
    };
    match fs::write(file, trace.to_bytes()) {
        Ok(()) => {
            println!("{file}: {} calls", trace.exchanges.len());
            ExitCode::SUCCESS
        }
        Err(problem) => {
            eprintln!("{file}: {problem}");
            ExitCode::FAILURE
        }
    }
}

/// The trace that is asked for, and its file.
fn asked(words: &[String]) -> Option<(Trace, &str)> {
    match words {
        [mode, seed, file] => {
            let trace = record(Mode::named(mode)?, seed.parse().ok()?).trace;
            Some((trace, file))
        }
        [mode, seed, calls, still, file] => {
            let still = still.parse().ok().filter(|still| *still > 0)?;
            let (seed, calls) = (seed.parse().ok()?, calls.parse().ok()?);
            Some((beginning(Mode::named(mode)?, seed, calls, still), file))
        }
        _ => None,
    }
}
