//! The command as a user calls it.

use std::fs;
use std::path::PathBuf;
use std::process::{Command, Output};

use serde_json::Value;

/// A fresh folder of this test.
fn folder(name: &str) -> PathBuf {
    let path = PathBuf::from(env!("CARGO_TARGET_TMPDIR")).join(name);
    let _ = fs::remove_dir_all(&path);
    fs::create_dir_all(&path).expect("a folder for the test");
    path
}

/// Calls the command in a folder.
fn call(folder: &PathBuf, line: &str) -> Output {
    Command::new(env!("CARGO_BIN_EXE_bucketbeach"))
        .args(line.split_whitespace())
        .current_dir(folder)
        .output()
        .expect("the command runs")
}

fn out(output: &Output) -> String {
    String::from_utf8_lossy(&output.stdout).into_owned()
}

fn err(output: &Output) -> String {
    String::from_utf8_lossy(&output.stderr).into_owned()
}

fn lines(path: PathBuf) -> Vec<Value> {
    let text = fs::read_to_string(path).expect("the JSON lines");
    let line = |line| serde_json::from_str(line).expect("a line is JSON");
    text.lines().map(line).collect()
}

#[test]
fn the_correct_node_passes() {
    let folder = folder("passes");
    let done = call(&folder, "judge --seeds 1..8 --json runs.json");
    assert_eq!(done.status.code(), Some(0), "{}", err(&done));
    assert!(
        out(&done).contains("PASSED: no check failed in 8 runs of the node correct, seeds 1..8.")
    );
    let runs = lines(folder.join("runs.json"));
    assert_eq!(runs.len(), 8);
    for (at, run) in runs.iter().enumerate() {
        assert_eq!(run["seed"], at as u64 + 1);
        assert_eq!(run["node"], "correct");
        assert_eq!(run["settings"]["servers"], 3);
        assert_eq!(run["violations"], Value::Array(Vec::new()));
        assert!(run["events"].as_u64() > Some(100) && run["syncs"].as_u64() > Some(10));
    }
}

#[test]
fn each_mistake_is_caught() {
    let folder = folder("caught");
    for node in [
        "vote-not-saved",
        "term-not-saved",
        "applies-early",
        "truncates-too-far",
    ] {
        let done = call(&folder, &format!("judge --node {node} --seeds 1..24"));
        assert_eq!(done.status.code(), Some(1), "{node}: {}", out(&done));
        assert!(out(&done).contains("its story: bucketbeach run "), "{node}");
    }
}

#[test]
fn a_story_ends_as_its_campaign_said() {
    let folder = folder("story");
    call(
        &folder,
        "judge --node applies-early --seeds 1..20 --json runs.json",
    );
    let runs = lines(folder.join("runs.json"));
    let failing = runs
        .iter()
        .find(|run| run["reported"].as_u64() > Some(0))
        .expect("one fails");
    let done = call(
        &folder,
        &format!("run {} --node applies-early", failing["seed"]),
    );
    assert_eq!(done.status.code(), Some(1));
    let story = out(&done);
    for part in [
        "starts for the first time",
        "election timer fires",
        "syncs",
        "sends",
        "VIOLATION of",
    ] {
        assert!(story.contains(part), "{part}");
    }
    let text = failing["violations"][0]["text"].as_str().expect("a text");
    assert!(story.contains(text), "{text}");
}

#[test]
fn a_story_of_one_server_up_to_a_time() {
    let folder = folder("part");
    let done = call(&folder, "run 3 --server 2 --until 400ms");
    let story = out(&done);
    assert!(story.contains("server 2") && !story.contains("server 1  "));
    let late = story
        .lines()
        .filter(|line| line.trim_start().starts_with("0.5"));
    assert_eq!(late.count(), 0);
}

#[test]
fn shards_are_the_whole_campaign() {
    let folder = folder("shards");
    let plan = "--node vote-not-saved --seeds 1..30";
    let whole = call(&folder, &format!("judge {plan} --json whole.json"));
    for shard in 1..=3 {
        call(
            &folder,
            &format!("judge {plan} --shard {shard}/3 --json part{shard}.json"),
        );
    }
    let files = "part3.json part1.json part2.json";
    let merged = call(
        &folder,
        &format!("merge {files} --json merged.json --report page.html"),
    );
    assert_eq!(merged.status.code(), whole.status.code());
    let read = |name| fs::read_to_string(folder.join(name)).expect(name);
    assert_eq!(read("merged.json"), read("whole.json"));
    assert!(read("page.html").contains("</html>"));
    let verdict = |output: &Output| out(output).lines().rev().nth(1).map(str::to_owned);
    assert_eq!(verdict(&merged), verdict(&whole));
}

#[test]
fn a_missing_shard_or_another_campaign_is_no_verdict() {
    let folder = folder("missing");
    call(&folder, "judge --seeds 1..6 --shard 1/2 --json one.json");
    let half = call(&folder, "merge one.json");
    assert_eq!(half.status.code(), Some(2));
    assert_eq!(
        err(&half),
        "bucketbeach: seeds 4..6 of 1..6 are missing: a shard is not here\n"
    );
    call(
        &folder,
        "judge --seeds 1..6 --shard 2/2 --servers 5 --json two.json",
    );
    let mixed = call(&folder, "merge one.json two.json");
    assert_eq!(mixed.status.code(), Some(2));
    assert!(
        err(&mixed).contains("its settings differ"),
        "{}",
        err(&mixed)
    );
    fs::write(folder.join("bad.json"), "{\"seed\": 1}\n").expect("a file");
    let bad = call(&folder, "merge bad.json");
    assert!(err(&bad).starts_with("bucketbeach: bad.json, line 1 is no run"));
}

#[test]
fn nothing_is_overwritten_unasked() {
    let folder = folder("kept");
    fs::write(folder.join("runs.json"), "mine").expect("a file");
    let done = call(&folder, "judge --seeds 1..1 --json runs.json");
    assert_eq!(done.status.code(), Some(2));
    assert_eq!(
        err(&done),
        "bucketbeach: runs.json exists; --force overwrites it\n"
    );
    assert_eq!(
        fs::read_to_string(folder.join("runs.json")).expect("it is there"),
        "mine"
    );
    let both = call(
        &folder,
        "judge --seeds 1..1 --json runs.json --report page.html",
    );
    assert_eq!(both.status.code(), Some(2));
    assert!(!folder.join("page.html").exists());
    let same = call(&folder, "judge --seeds 1..1 --json a --report a --force");
    assert!(err(&same).contains("the same file"));
    let forced = call(&folder, "judge --seeds 1..1 --json runs.json --force");
    assert_eq!(forced.status.code(), Some(0));
    assert_eq!(lines(folder.join("runs.json")).len(), 1);
}

#[test]
fn wrong_input_gets_one_line() {
    let folder = folder("wrong");
    let cases = [
        ("", "judge, run, merge"),
        ("judge --node raft", "vote-not-saved"),
        ("judge --servers 0", "there are 1 to 8"),
        ("judge --seeds 1..3 --shard 2/9", "N is 1 to 3"),
        ("run 1 --server 7", "the servers are 1 to 3"),
        ("run 1 --from 3s --until 1s", "--from is after --until"),
        ("judge --seeds 5..1", "FIRST not after LAST"),
        ("help", "or --help"),
        ("merge nothing.json", "nothing.json cannot be read"),
        ("judge --seeds 1..1 --json no/where", "cannot be written"),
    ];
    for (line, part) in cases {
        let done = call(&folder, line);
        assert_eq!(done.status.code(), Some(2), "{line}");
        assert!(err(&done).contains(part), "{line}: {}", err(&done));
        assert_eq!(err(&done).lines().count(), 1, "{line}: {}", err(&done));
        assert_eq!(out(&done), "", "{line}");
    }
}

/// `bucketbeach judge 2>&1 | head -1` is no failure of the command.
#[test]
fn a_reader_may_go_away() {
    let folder = folder("reader");
    let program = env!("CARGO_BIN_EXE_bucketbeach");
    let gone = format!("{program} run 3 2>&1 | true; echo ${{PIPESTATUS[0]}}");
    let mut bash = Command::new("bash");
    let bash = bash.args(["-c", &gone]).current_dir(folder);
    let done = bash.output().expect("the shell runs");
    assert_eq!(out(&done), "0\n", "{}", err(&done));
}

#[test]
fn other_sizes_are_judged_too() {
    let folder = folder("sizes");
    for line in [
        "--servers 1 --clients 0",
        "--servers 8 --clients 9 --time 600ms",
        "--log 8 --payload 12 --events 1 --writes 1 --history 1",
        "--faults none --time 300ms",
        "--faults chaos,calls --time 5s --log 1024",
    ] {
        let done = call(&folder, &format!("judge --seeds 1..2 {line}"));
        assert_eq!(
            done.status.code(),
            Some(0),
            "{line}: {}{}",
            out(&done),
            err(&done)
        );
    }
    let small = call(&folder, "judge --seeds 1..2 --message 3");
    assert_eq!(small.status.code(), Some(2));
    assert!(out(&small).contains("NODE'S FAULT"), "{}", out(&small));
}
