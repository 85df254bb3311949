//! Writes the recorded traces to a folder.

use std::path::Path;
use std::process::ExitCode;
use std::{env, fs};

use compare::RECORDED;

fn main() -> ExitCode {
    let words: Vec<String> = env::args().skip(1).collect();
    let [folder] = &words[..] else {
        eprintln!("usage: write_traces FOLDER");
        return ExitCode::from(2);
    };
    for recorded in RECORDED {
        let file = Path::new(folder).join(recorded.file());
        if let Err(problem) = fs::write(&file, recorded.trace().to_bytes()) {
            eprintln!("{}: {problem}", file.display());
            return ExitCode::FAILURE;
        }
    }
    ExitCode::SUCCESS
}
