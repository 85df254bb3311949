//! Writes the short runs, or the beginning of a long one, as a module of antt, on which the definitions are computed.

use std::process::ExitCode;
use std::{env, fs};

use compare::short::short_runs;
use compare::{Mode, module};

fn main() -> ExitCode {
    let words: Vec<String> = env::args().skip(1).collect();
    let Some((text, file)) = asked(&words) else {
        eprintln!("usage: write_run FILE, or write_run MODE SEED CALLS READS FILE");
        eprintln!("CALLS: how many exchanges; READS: one in so many reads is kept");
        return ExitCode::from(2);
    };
    match fs::write(file, text) {
        Ok(()) => ExitCode::SUCCESS,
        Err(problem) => {
            eprintln!("{file}: {problem}");
            ExitCode::FAILURE
        }
    }
}

/// The module that is asked for, and its file.
fn asked(words: &[String]) -> Option<(String, &str)> {
    if let [file] = words {
        return Some((short_runs(), file));
    }
    let [mode, seed, calls, reads, file] = words else {
        return None;
    };
    let reads = reads.parse().ok().filter(|reads| *reads > 0)?;
    let (seed, calls) = (seed.parse().ok()?, calls.parse().ok()?);
    Some((module(Mode::named(mode)?, seed, calls, reads), file))
}
