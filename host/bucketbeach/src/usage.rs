//! Wrong usage in one line.

use std::error::Error as _;

use clap::error::{ContextKind, ContextValue, ErrorKind};
use clap::{Command, CommandFactory};

use crate::options::Options;

/// What the parser has to say: a text that was asked for, or a line about what is wrong.
pub fn told(error: &clap::Error, arguments: &[String]) -> Result<String, String> {
    let whole = Options::command();
    let task = arguments
        .iter()
        .find_map(|name| whole.find_subcommand(name));
    let wrong = context(error, ContextKind::InvalidArg);
    Err(match error.kind() {
        ErrorKind::DisplayHelp | ErrorKind::DisplayVersion => return Ok(error.to_string()),
        ErrorKind::DisplayHelpOnMissingArgumentOrSubcommand | ErrorKind::MissingSubcommand => {
            format!("a command is missing: {}; or --help", tasks(&whole))
        }
        ErrorKind::InvalidSubcommand => {
            let name = context(error, ContextKind::InvalidSubcommand);
            let tasks = tasks(&whole);
            format!("no command is called '{name}'; there are {tasks}; or --help")
        }
        ErrorKind::UnknownArgument if task.is_none() => {
            format!("'{wrong}' is no command; there are {}", tasks(&whole))
        }
        ErrorKind::UnknownArgument => {
            format!(
                "'{wrong}' is not accepted here; accepted are {}",
                accepted(task)
            )
        }
        ErrorKind::MissingRequiredArgument => format!("missing: {wrong}"),
        ErrorKind::ArgumentConflict => format!("{wrong} is given twice"),
        _ => value(error, &wrong),
    })
}

/// A value that is not accepted.
fn value(error: &clap::Error, option: &str) -> String {
    let given = context(error, ContextKind::InvalidValue);
    let name = option.split(' ').next().unwrap_or(option);
    match error.source() {
        Some(reason) => format!("{name} {given}: {reason}"),
        None if given.is_empty() && !option.is_empty() => format!("{option} wants a value"),
        None => first_line(&error.to_string()),
    }
}

/// The first line of a longer text, without its label.
fn first_line(text: &str) -> String {
    let line = text.lines().next().unwrap_or_default();
    line.trim_start_matches("error: ").to_owned()
}

/// What the parser says of an error's context.
fn context(error: &clap::Error, kind: ContextKind) -> String {
    match error.get(kind) {
        Some(ContextValue::String(text)) => text.clone(),
        Some(ContextValue::Strings(texts)) => texts.join(", "),
        _ => String::new(),
    }
}

/// The commands' names.
fn tasks(whole: &Command) -> String {
    let names: Vec<&str> = whole.get_subcommands().map(Command::get_name).collect();
    names.join(", ")
}

/// The options of a command.
fn accepted(task: Option<&Command>) -> String {
    let arguments = task.into_iter().flat_map(Command::get_arguments);
    let names = arguments.map(|argument| match argument.get_long() {
        Some(long) => format!("--{long}"),
        None => match argument.get_value_names() {
            Some([name, ..]) => name.to_string(),
            _ => argument.get_id().to_string(),
        },
    });
    names.collect::<Vec<_>>().join(", ")
}

#[cfg(test)]
mod tests {
    use super::*;
    use clap::Parser;

    /// What a command line is told; none where it is accepted.
    fn said(line: &str) -> Option<Result<String, String>> {
        let arguments: Vec<String> = line.split(' ').map(str::to_owned).collect();
        let parsed = Options::try_parse_from(&arguments);
        parsed.err().map(|error| told(&error, &arguments))
    }

    #[test]
    fn wrong_usage_is_one_line_that_says_what_is_accepted() {
        let cases = [
            ("b", "judge, run, merge"),
            ("b dance", "judge, run, merge"),
            ("b --loud", "judge, run, merge"),
            ("b judge --loud", "--seeds"),
            ("b judge --servers 9", "--servers 9: there are 1 to 8"),
            ("b judge --servers", "--servers <S> wants a value"),
            ("b judge --seeds 1-5", "FIRST..LAST"),
            (
                "b judge --seeds 1..2 --seeds 1..3",
                "--seeds <FIRST..LAST> is given twice",
            ),
            ("b judge --time 20", "e.g. 20s"),
            ("b judge --faults rain", "chaos, crashes, contests, calls"),
            ("b judge --shard 5/4", "I from 1 to N"),
            ("b run", "missing: <SEED>"),
            ("b run x", "a seed is a number"),
            ("b run 1 2", "'2' is not accepted here; accepted are SEED, "),
            ("b judge --seeds 5..1", "FIRST not after LAST"),
            ("b merge", "missing: <FILES>"),
        ];
        for (line, part) in cases {
            let text = said(line).expect(line).expect_err(line);
            assert!(text.contains(part), "{line}: {text}");
            assert_eq!(text.lines().count(), 1, "{line}: {text}");
        }
    }

    #[test]
    fn help_is_no_error() {
        assert!(said("b --help").unwrap().unwrap().contains("judge"));
        assert!(said("b judge --help").unwrap().unwrap().contains("--seeds"));
        assert!(said("b judge").is_none());
    }
}
