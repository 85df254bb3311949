//! Times, checks, violations and faults in words.

use judge::Fault;
use port::kinds;

/// The checks in the reference's order: the name, and what it says.
pub const CHECKS: [(&str, &str); 8] = [
    ("election safety", "no term has two leaders"),
    (
        "state machine safety",
        "no two servers apply different entries at one index",
    ),
    (
        "apply order",
        "a server applies from index 1 on, in order, without gaps",
    ),
    ("unique entries", "an index and a term have one entry"),
    (
        "durability",
        "at the end every server has applied every acknowledged command",
    ),
    ("liveness", "commands commit again after the faults"),
    (
        "log matching",
        "logs that agree at an index and term agree before it",
    ),
    (
        "leader completeness",
        "a new leader holds every applied entry",
    ),
];

/// A check's name.
pub fn check(number: u64) -> &'static str {
    let known = usize::try_from(number).ok().and_then(|at| CHECKS.get(at));
    known.map_or("unknown check", |(name, _)| name)
}

/// A violation in the reference's words, from its check and its numbers.
pub fn violation(check: u64, numbers: &[u64]) -> String {
    match (check, numbers) {
        (0, [other, server, term]) => format!("servers {other} and {server} both led term {term}"),
        (1, [server, index]) => format!(
            "server {server} applied a different entry at index {index} than an earlier server"
        ),
        (2, [server, index, next]) => {
            format!("server {server} applied index {index} but was expected to apply {next}")
        }
        (3, [server, index, term]) => format!(
            "server {server} wrote a different entry at index {index} in term {term} than another server"
        ),
        (4, [index]) => {
            format!("the command acknowledged at index {index} is not the entry applied there")
        }
        (4, [server, count, highest]) => format!(
            "server {server} applied up to index {count}, but a command was acknowledged at index {highest}"
        ),
        (6, [a, b, term, index, difference]) => format!(
            "servers {a} and {b}: both hold term {term} at index {index} but differ at index {difference}"
        ),
        (7, [server, term, index]) => format!(
            "server {server} became leader of term {term} without the applied entry at index {index}"
        ),
        _ => format!("its numbers are {numbers:?}"),
    }
}

/// A time in seconds, to the millisecond.
pub fn seconds(nanos: u64) -> String {
    let ms = nanos / 1_000_000;
    format!("{}.{:03} s", grouped(ms / 1_000), ms % 1_000)
}

/// A time in seconds, to the microsecond.
pub fn exact(nanos: u64) -> String {
    let us = nanos / 1_000;
    format!("{}.{:06} s", us / 1_000_000, us % 1_000_000)
}

/// A length of time as short as can be: 2.5 s, 20 ms.
pub fn duration(nanos: u64) -> String {
    const UNITS: [(u64, &str); 3] = [(1_000_000_000, "s"), (1_000_000, "ms"), (1_000, "us")];
    let unit = UNITS.iter().find(|(unit, _)| nanos >= *unit);
    match unit {
        Some((unit, name)) => {
            let rounded = (nanos as f64 / *unit as f64 * 1e3).round() / 1e3;
            format!("{rounded} {name}")
        }
        None => format!("{nanos} ns"),
    }
}

/// A number with its thousands apart.
pub fn grouped(number: u64) -> String {
    let digits = number.to_string();
    let mut text = String::new();
    for (at, digit) in digits.chars().enumerate() {
        if at > 0 && (digits.len() - at).is_multiple_of(3) {
            text.push(',');
        }
        text.push(digit);
    }
    text
}

/// A number of things: 1 run, 2 runs.
pub fn count(number: u64, thing: &str) -> String {
    let s = if number == 1 { "" } else { "s" };
    format!("{} {thing}{s}", grouped(number))
}

/// A fault of a plan.
pub fn fault(fault: &Fault) -> String {
    use kinds::fault as of;
    let (first, second) = (fault.first, fault.second);
    match fault.kind {
        of::CRASH => format!("server {first} is to crash"),
        of::CRASH_DURING_NEXT_INPUT => format!("server {first} is to crash in its next input"),
        of::RESTART => format!("server {first} is to restart, if it is down"),
        of::CRASH_LEADER => format!("the leader is to crash for {}", duration(first)),
        of::PARTITION => format!("partition {}", groups(&fault.groups)),
        of::BLOCK => format!("nothing goes from {first} to {second}"),
        of::UNBLOCK => format!("messages go from {first} to {second} again"),
        of::HEAL_LINKS => "every link works again".to_owned(),
        of::SET_LOSS if first == 0 => "no message is lost any more".to_owned(),
        of::SET_LOSS => format!("{} of the messages are lost", percent(first)),
        of::SET_DUPLICATION if first == 0 => "no message comes twice any more".to_owned(),
        of::SET_DUPLICATION => format!("{} of the messages come twice", percent(first)),
        of::SET_DELAY_FACTOR if first <= 1 => "messages take their usual time".to_owned(),
        of::SET_DELAY_FACTOR => format!("messages take {first} times as long"),
        of::HEAL_ALL => "every fault ends, and stopped servers restart".to_owned(),
        kind => format!("fault {kind}"),
    }
}

/// A partition's groups: 1 | 2 3.
pub fn groups(groups: &[u8]) -> String {
    let group = |bits: &u8| {
        let members = (0..8).filter(|bit| bits >> bit & 1 == 1);
        let members: Vec<String> = members.map(|bit: u32| (bit + 1).to_string()).collect();
        members.join(" ")
    };
    let groups: Vec<String> = groups.iter().map(group).collect();
    groups.join(" | ")
}

/// A rate of so many in a million.
pub fn percent(millionths: u64) -> String {
    format!("{} %", millionths as f64 / 1e4)
}

#[cfg(test)]
mod tests {
    use super::*;

    #[test]
    fn numbers_and_times() {
        assert_eq!(grouped(1_234_567), "1,234,567");
        assert_eq!(grouped(123), "123");
        assert_eq!(seconds(1_234_567_890), "1.234 s");
        assert_eq!(exact(1_234_567_890), "1.234567 s");
        assert_eq!(duration(2_500_000_000), "2.5 s");
        assert_eq!(duration(20_000_000), "20 ms");
        assert_eq!(count(1, "run"), "1 run");
    }

    #[test]
    fn every_violation_has_words() {
        let counts = [
            (0, 3),
            (1, 2),
            (2, 3),
            (3, 3),
            (4, 1),
            (4, 3),
            (6, 5),
            (7, 3),
        ];
        for (check, count) in counts {
            let numbers: Vec<u64> = (11..11 + count).collect();
            let text = violation(check, &numbers);
            for number in numbers {
                assert!(text.contains(&number.to_string()), "{text}");
            }
        }
    }

    #[test]
    fn a_partition_names_its_servers() {
        assert_eq!(groups(&[0b001, 0b110]), "1 | 2 3");
    }
}
