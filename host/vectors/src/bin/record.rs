//! Writes the recorded answers into the folder `crates/replay/data` that is named, and those that another crate replays
//! into that crate's folder beside it.

use std::path::Path;
use std::process::ExitCode;
use std::{env, fs, io};

fn main() -> ExitCode {
    let Some(folder) = env::args().nth(1) else {
        eprintln!("usage: record FOLDER");
        return ExitCode::from(2);
    };
    match write(Path::new(&folder)) {
        Ok(()) => ExitCode::SUCCESS,
        Err(problem) => {
            eprintln!("{folder}: {problem}");
            ExitCode::FAILURE
        }
    }
}

fn write(folder: &Path) -> io::Result<()> {
    for file in vectors::all() {
        let folder = match file.owner {
            "replay" => folder.to_path_buf(),
            owner => folder.join("../..").join(owner).join("data"),
        };
        fs::create_dir_all(&folder)?;
        fs::write(folder.join(file.name), file.bytes())?;
        let (rows, width) = (file.rows.len(), file.width);
        println!("{:20} {rows:4} rows of {width:2} words", file.name);
    }
    Ok(())
}
