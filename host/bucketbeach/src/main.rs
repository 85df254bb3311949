//! The command with the embedded nodes.

use std::process::ExitCode;

use bucketbeach::{Choice, Linked, command};

fn main() -> ExitCode {
    command(&Choice::embedded::<Linked>())
}
