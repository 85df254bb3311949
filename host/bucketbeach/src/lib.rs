//! The command: campaigns, runs told as stories, the report page, and comparisons with the reference.
//!
//! The binary of this package judges the embedded Raft. A user's own node gets the same command with
//!
//! ```text
//! fn main() -> std::process::ExitCode {
//!     bucketbeach::main::<MyNode>()
//! }
//! ```

mod campaign;
#[cfg(feature = "reference")]
mod compare;
mod difference;
mod files;
mod merge;
mod nodes;
mod options;
mod progress;
mod record;
mod replay;
mod report;
mod story;
mod summary;
#[cfg(feature = "reference")]
mod tally;
mod usage;
mod words;

use std::env;
use std::io::{Write as _, stderr, stdout};
use std::panic;
use std::path::PathBuf;
use std::process::ExitCode;
use std::sync::Once;

use clap::Parser as _;
use port::Port;

pub use node;
pub use nodes::Choice;
use options::{CompareOptions, Options, Task};

/// Calls that nodes can be judged with.
pub trait Judging: Port + Default + 'static {
    /// What they are, for tables and the report page.
    const NAME: &'static str;
}

/// What the proved library is called.
const PROVED: &str = "the proved library";

#[cfg(feature = "linked")]
impl Judging for library::Library {
    const NAME: &'static str = PROVED;
}

#[cfg(feature = "stepwise")]
impl Judging for stepwise::Stepwise {
    const NAME: &'static str = "the reference's modules (not the proved library)";
}

/// The calls that were linked.
#[cfg(feature = "linked")]
pub type Linked = library::Library;

/// The calls that were linked.
#[cfg(all(feature = "stepwise", not(feature = "linked")))]
pub type Linked = stepwise::Stepwise;

/// The whole command with a user's node as the default one. Returns the exit status.
#[cfg(feature = "runs")]
pub fn main<N: node::Consensus>() -> ExitCode {
    command(&Choice::own::<N, Linked>())
}

/// The whole command with these nodes. Returns the exit status.
pub fn command(choice: &Choice) -> ExitCode {
    say_one_panic();
    let arguments: Vec<String> = env::args_os()
        .map(|argument| argument.to_string_lossy().into_owned())
        .collect();
    let done = match Options::try_parse_from(env::args_os()) {
        Ok(options) => obey(choice, &options),
        Err(error) => usage::told(&error, &arguments).map(|text| {
            print(&text);
            0
        }),
    };
    done.map_or_else(
        |line| {
            let _ = writeln!(stderr(), "bucketbeach: {line}");
            ExitCode::from(2)
        },
        ExitCode::from,
    )
}

fn obey(choice: &Choice, options: &Options) -> Result<u8, String> {
    match &options.task {
        Task::Judge(options) => campaign::judge(choice, options),
        Task::Run(options) => story::run(choice, options),
        Task::Merge(options) => merge::merge(choice, options),
        Task::Compare(options) => compare(choice, options),
        Task::Replay(options) => replay::replay(choice, options),
    }
}

#[cfg(feature = "reference")]
fn compare(choice: &Choice, options: &CompareOptions) -> Result<u8, String> {
    compare::compare(choice, options)
}

#[cfg(not(feature = "reference"))]
fn compare(_: &Choice, _: &CompareOptions) -> Result<u8, String> {
    Err(
        "compare needs the reference, and this command was built without it: \
         tools/judge builds it in where its source is, beside the repository or where BUCKETBEACH_REFERENCE says"
            .to_owned(),
    )
}

/// A node's panic is told as its fault; where it was is said once, not for every seed.
fn say_one_panic() {
    static SAID: Once = Once::new();
    let say = panic::take_hook();
    panic::set_hook(Box::new(move |about| SAID.call_once(|| say(about))));
}

/// What the command is called: a user's own has another name.
fn program() -> String {
    let path = env::args_os().next().map(PathBuf::from);
    let name = path.and_then(|path| Some(path.file_stem()?.to_string_lossy().into_owned()));
    name.unwrap_or_else(|| "bucketbeach".to_owned())
}

/// Prints; a reader that has gone away needs no more.
fn print(text: &str) {
    let mut out = stdout().lock();
    let _ = out.write_all(text.as_bytes()).and_then(|()| out.flush());
}
