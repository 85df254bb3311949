//! A small node of one's own, and the whole command to judge it.

mod primary;

use std::process::ExitCode;

fn main() -> ExitCode {
    bucketbeach::main::<primary::Primary>()
}
