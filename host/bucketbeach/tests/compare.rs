//! Comparing as a user does it: the reference beside the calls, and files of calls.

use std::fs;
use std::path::{Path, PathBuf};
use std::process::{Command, Output};

use port::{Done, kinds};
use trace::{Call, Exchange, Numbers, Trace};

/// Calls the command.
fn call(line: &str) -> Output {
    Command::new(env!("CARGO_BIN_EXE_bucketbeach"))
        .args(line.split_whitespace())
        .output()
        .expect("the command runs")
}

fn out(output: &Output) -> String {
    String::from_utf8_lossy(&output.stdout).into_owned()
}

fn err(output: &Output) -> String {
    String::from_utf8_lossy(&output.stderr).into_owned()
}

/// A trace of the repository: the beginning of a run of the reference.
fn recorded(name: &str) -> PathBuf {
    let folder = Path::new(env!("CARGO_MANIFEST_DIR")).join("../../crates/traces/data");
    folder.join(name)
}

/// A file of this test.
fn file(name: &str, bytes: &[u8]) -> PathBuf {
    let path = PathBuf::from(env!("CARGO_TARGET_TMPDIR")).join(name);
    fs::write(&path, bytes).expect("a file for the test");
    path
}

fn replay(path: &Path, options: &str) -> Output {
    call(&format!("replay {} {options}", path.display()))
}

/// Wrong usage: one line, nothing else.
fn wrong(line: &str, part: &str) {
    let done = call(line);
    assert_eq!(done.status.code(), Some(2), "{line}");
    assert!(err(&done).contains(part), "{line}: {}", err(&done));
    assert_eq!(err(&done).lines().count(), 1, "{line}: {}", err(&done));
    assert_eq!(out(&done), "", "{line}");
}

#[test]
fn recorded_calls_agree() {
    for name in ["hostile-1.bin", "raft-20.bin", "applies-early-9.bin"] {
        let path = recorded(name);
        let done = replay(&path, "");
        let bytes = fs::read(&path).expect("the trace");
        let calls = Trace::from_bytes(&bytes).expect("a trace").exchanges.len();
        let calls = format!("{},{:03} calls", calls / 1_000, calls % 1_000);
        assert_eq!(done.status.code(), Some(0), "{}", err(&done));
        assert_eq!(out(&done).lines().count(), 1);
        assert!(out(&done).contains("no difference") && out(&done).contains(&calls));
    }
}

/// The place of the last seal that synced, and its trace with another answer there.
fn lying() -> (usize, Trace) {
    let bytes = fs::read(recorded("hostile-1.bin")).expect("the trace");
    let mut trace = Trace::from_bytes(&bytes).expect("a trace");
    let synced = |exchange: &Exchange| match exchange.answer.numbers {
        Numbers::Sealed(sealed) => sealed.outcome == kinds::seal::SYNCED,
        _ => false,
    };
    let place = trace.exchanges.iter().rposition(synced).expect("a sync");
    if let Numbers::Sealed(sealed) = &mut trace.exchanges[place].answer.numbers {
        sealed.outcome = kinds::seal::NOTHING;
    }
    (place, trace)
}

#[test]
fn a_difference_is_told_at_its_place() {
    let (place, trace) = lying();
    let done = replay(&file("lying.bin", &trace.to_bytes()), "--before 5");
    assert_eq!(done.status.code(), Some(1), "{}", err(&done));
    let (story, number) = (
        out(&done),
        format!("{},{:03}", place / 1_000, place % 1_000),
    );
    assert!(
        story.contains(&format!("DIFFERS at call {number} ")),
        "{story}"
    );
    let told: Vec<&str> = story.lines().collect();
    assert_eq!(told.len(), 1 + 5 + 1 + 2, "{story}");
    for (line, at) in told[1..=6].iter().zip(place - 5..) {
        assert!(line.trim_start().starts_with(&format!("{at}  ")), "{line}");
    }
    assert!(told[6].contains("seal(") && told[6].ends_with("DIFFERS"));
    assert!(told[7].contains("expected") && told[7].contains("outcome: 2"));
    assert!(told[8].contains("found") && told[8].contains("outcome: 1"));
    let run = trace.exchanges[place..]
        .iter()
        .find_map(|exchange| match exchange.answer.numbers {
            Numbers::Run(run) => Some(run.now / 1_000),
            _ => None,
        });
    let now = run.expect("the run is read after the input");
    let time = format!("{}.{:06} s", now / 1_000_000, now % 1_000_000);
    assert!(told[0].contains(&time), "{}: {time}", told[0]);
    let usual = replay(&file("lying.bin", &trace.to_bytes()), "");
    assert_eq!(out(&usual).lines().count(), 1 + 12 + 1 + 2);
}

#[test]
fn a_flipped_bit_of_a_message_is_told() {
    let bytes = fs::read(recorded("hostile-1.bin")).expect("the trace");
    let mut trace = Trace::from_bytes(&bytes).expect("a trace");
    let long = |exchange: &Exchange| exchange.answer.bytes.len() > 40;
    let place = trace
        .exchanges
        .iter()
        .position(long)
        .expect("a long answer");
    trace.exchanges[place].answer.bytes[39] ^= 0x10;
    let done = replay(&file("flipped.bin", &trace.to_bytes()), "--before 0");
    assert_eq!(done.status.code(), Some(1), "{}", err(&done));
    let story = out(&done);
    assert!(
        story.contains("the bytes differ from place 39 on"),
        "{story}"
    );
}

#[test]
fn a_refused_call_that_was_accepted_is_told() {
    let mut trace = lying().1;
    let refused = |exchange: &Exchange| exchange.answer.numbers.refusal() == kinds::refusal::SERVER;
    let place = trace.exchanges.iter().position(refused).expect("a refusal");
    trace.exchanges.truncate(place + 1);
    trace.exchanges[place].answer = match trace.exchanges[place].answer.numbers {
        Numbers::Done(_) => Done::default().into(),
        _ => trace.exchanges[place].call.refused(kinds::refusal::RANGE),
    };
    let done = replay(&file("accepted.bin", &trace.to_bytes()), "");
    assert_eq!(done.status.code(), Some(1), "{}", err(&done));
    assert!(
        out(&done).contains("found  refused with 7"),
        "{}",
        out(&done)
    );
}

#[test]
fn a_file_that_is_no_trace_gets_one_line() {
    wrong("replay", "missing: <FILE>");
    wrong("replay nothing.bin", "nothing.bin cannot be read");
    let empty = file("empty.bin", &[]);
    wrong(&format!("replay {}", empty.display()), "it has no call");
    let noise = file("noise.bin", &[7; 100]);
    wrong(&format!("replay {}", noise.display()), "row 0 is no call");
    let (_, mut trace) = lying();
    if let Call::Start { limits, .. } = &mut trace.exchanges[0].call {
        limits.events = 1 << 60;
    }
    let vast = file("vast.bin", &trace.to_bytes());
    wrong(&format!("replay {}", vast.display()), "lends more memory");
    wrong("replay a.bin --before many", "calls are 0 to");
}

#[cfg(not(feature = "reference"))]
#[test]
fn without_the_reference_one_line_says_so() {
    wrong("compare raft 1", "needs the reference");
    wrong("compare all 1..20", "tools/judge");
}

#[cfg(feature = "reference")]
mod reference {
    use super::*;

    #[test]
    fn one_run_is_one_line() {
        let done = call("compare hostile 3");
        assert_eq!(done.status.code(), Some(0), "{}", err(&done));
        let line = out(&done);
        assert_eq!(line.lines().count(), 1, "{line}");
        assert!(line.starts_with("hostile 3: no difference: ") && line.contains(" calls compared"));
        assert_eq!(err(&done), "");
    }

    /// The numbers of a line of a table, without the commas.
    fn numbers(line: &str) -> Vec<u64> {
        let words = line.split_whitespace();
        words
            .filter_map(|word| word.replace(',', "").parse().ok())
            .collect()
    }

    #[test]
    fn a_campaign_compares_every_kind_of_call() {
        let done = call("compare all 1..2");
        assert_eq!(done.status.code(), Some(0), "{}{}", out(&done), err(&done));
        let told = out(&done);
        let line = |start: &str| {
            let found = told.lines().find(|line| line.starts_with(start));
            found
                .unwrap_or_else(|| panic!("{start}: {told}"))
                .to_owned()
        };
        for mode in [
            "raft",
            "hostile",
            "wide",
            "vote-not-saved",
            "truncates-too-far",
        ] {
            assert_eq!(numbers(&line(mode))[0], 2, "{told}");
        }
        let calls = numbers(&line("all"))[2];
        assert!(calls > 300_000, "{told}");
        let kinds: Vec<u64> = (1..=17)
            .flat_map(|kind| numbers(&line(&format!("{kind:>2} "))))
            .collect();
        assert_eq!(
            kinds.len(),
            4 * 17,
            "a number and a count in two columns: {told}"
        );
        assert_eq!(kinds.iter().skip(1).step_by(2).sum::<u64>(), calls);
        assert!(kinds.iter().all(|number| *number > 0), "{told}");
        for refusal in [1, 2, 3, 4, 6, 7, 8, 9, 10] {
            assert!(
                line("refusals").contains(&format!(" {refusal}: ")),
                "{told}"
            );
        }
        assert!(told.ends_with(" events\n") && told.contains("no difference: "));
    }

    #[test]
    fn larger_tables_answer_the_same() {
        let done = call("compare hostile 1..4 --limits doubled");
        assert_eq!(done.status.code(), Some(0), "{}{}", out(&done), err(&done));
        assert!(out(&done).contains("limits     doubled"));
        let done = call("compare wide 2 --limits largest --calls 12");
        assert_eq!(done.status.code(), Some(0), "{}{}", out(&done), err(&done));
        assert!(out(&done).contains("12 calls compared"), "{}", out(&done));
    }

    #[test]
    fn wrong_usage_gets_one_line() {
        wrong("compare", "missing: <MODE>, <SEED>");
        wrong("compare raft", "missing: <SEED>");
        wrong("compare correct 1", "there are raft, hostile, wide");
        wrong("compare raft 5..1", "seeds are FIRST..LAST");
        wrong("compare raft x", "a seed is a number");
        wrong("compare raft 1 --limits huge", "smallest, doubled, largest");
        wrong("compare raft 1 --calls 0", "calls are 1 to");
        wrong("compare raft 1 --loud", "--limits, --calls, --before");
    }
}
