//! Settings.

use std::ops::RangeInclusive;
use std::time::Duration;

use consensus::Config;
use port::kinds::refusal;

use crate::File;

/// Heartbeat interval, shortest and longest election timeout, entries in a message, entries in
/// flight, 1 where they are accepted.
pub(crate) fn validate() -> File {
    let good = [75, 150, 300, 64, 1_024];
    let values = [0, 1, 63, 64, 74, 75, 149, 150, 151, 300, 1_024, u64::MAX];
    let mut cases = vec![good, [1, 2, 2, 1, 1], [1, 1, 1, 1, 1], [0; 5]];
    for place in 0..good.len() {
        for value in values {
            let mut case = good;
            case[place] = value;
            cases.push(case);
        }
    }
    let rows = cases.into_iter().map(|case| {
        let [heartbeat, min, max, per_message, in_flight] = case;
        let config = Config {
            heartbeat_interval: Duration::from_nanos(heartbeat),
            election_timeout_min: Duration::from_nanos(min),
            election_timeout_max: Duration::from_nanos(max),
            max_entries_per_message: per_message as usize,
            max_entries_in_flight: in_flight as usize,
        };
        let accepted = config.validate().is_ok().into();
        [heartbeat, min, max, per_message, in_flight, accepted]
    });
    File::new("config.bin", rows)
}

/// Settings in the order of the start call.
const SETTINGS: usize = 14;

/// The numbers of settings and limits, by their places in a row.
mod place {
    pub const SERVERS: usize = 0;
    pub const HEARTBEAT: usize = 1;
    pub const TIMEOUT_MIN: usize = 2;
    pub const TIMEOUT_MAX: usize = 3;
    pub const PER_MESSAGE: usize = 4;
    pub const IN_FLIGHT: usize = 5;
    pub const DELAY: usize = 6;
    pub const CLIENTS: usize = 7;
    pub const COMMAND: usize = 8;
    pub const CLIENT_TIMEOUT: usize = 9;
    pub const BACKOFF: usize = 10;
    pub const COUNT_BYTES: usize = 11;
    pub const RAFT_CHECKS: usize = 12;
    pub const SPREAD: usize = 13;
    pub const LOG: usize = 14;
    pub const PAYLOAD: usize = 15;
    pub const MESSAGE: usize = 16;
    pub const EVENTS: usize = 17;
    pub const WRITES: usize = 18;
    pub const HISTORY: usize = 19;
}

/// The longest duration of document 01.
const LONGEST: u64 = 1 << 40;

/// A start's settings (14) and limits (6), the number of the first of the questions 1 to 3 that
/// they do not pass, or 0; the length of the area, 0 where they are refused.
pub(crate) fn settings() -> File {
    let rows = cases().into_iter().map(|case| {
        let refusal = refusal_of(&case);
        let length = match refusal {
            refusal::NONE => area_length(&case),
            _ => 0,
        };
        let mut row = [0; SETTINGS + 8];
        row[..case.len()].copy_from_slice(&case);
        row[case.len()..].copy_from_slice(&[refusal, length]);
        row
    });
    File::new("settings.bin", rows)
}

type Case = [u64; SETTINGS + 6];

/// Settings and limits in the middle of their ranges.
const GOOD: Case = [
    3, 75, 150, 300, 64, 1_024, 7, 2, 12, 500, 50, 1, 0, 0, 16, 24, 100, 32, 8, 64,
];

/// The least that is accepted.
const LEAST: Case = [1, 1, 2, 2, 1, 1, 0, 0, 0, 0, 0, 0, 0, 0, 1, 12, 0, 1, 1, 1];

/// The most that is accepted.
const MOST: Case = [
    8,
    LONGEST - 1,
    LONGEST,
    LONGEST,
    u64::MAX,
    u64::MAX,
    LONGEST,
    64,
    256,
    LONGEST,
    LONGEST,
    1,
    1,
    LONGEST,
    1_024,
    256,
    4_096,
    65_536,
    65_536,
    65_536,
];

/// Numbers at and past the ends of every range, one at a time; then several at once.
fn cases() -> Vec<Case> {
    let mut cases = vec![GOOD, LEAST, MOST, [0; 20], [u64::MAX; 20]];
    for (place, values) in ends() {
        for value in values {
            for mut case in [GOOD, LEAST, MOST] {
                case[place] = value;
                cases.push(case);
            }
        }
    }
    // The first question that is answered no decides.
    for wrong in [
        &[(place::SERVERS, 9), (place::PER_MESSAGE, 0)][..],
        &[(place::SERVERS, 0), (place::CLIENTS, 65)],
        &[(place::TIMEOUT_MIN, 0), (place::LOG, 0)],
        &[
            (place::SERVERS, 9),
            (place::HEARTBEAT, 0),
            (place::HISTORY, 0),
        ],
        &[(place::PAYLOAD, 11), (place::COMMAND, 11)],
        &[(place::PAYLOAD, 257), (place::COMMAND, 257)],
        &[
            (place::TIMEOUT_MIN, LONGEST + 1),
            (place::TIMEOUT_MAX, LONGEST + 1),
        ],
    ] {
        let mut case = GOOD;
        for &(place, value) in wrong {
            case[place] = value;
        }
        cases.push(case);
    }
    cases
}

/// Of each number the values at the ends of its range and past them.
fn ends() -> Vec<(usize, Vec<u64>)> {
    let mut ends = vec![
        (place::SERVERS, vec![0, 1, 8, 9]),
        (place::HEARTBEAT, vec![0, 1, 149, 150, LONGEST]),
        (place::TIMEOUT_MIN, vec![0, 75, 76, 300, 301]),
        (place::TIMEOUT_MAX, vec![149, 150, LONGEST, LONGEST + 1]),
        (place::PER_MESSAGE, vec![0, 1, 1_024, 1_025]),
        (place::IN_FLIGHT, vec![0, 63, 64]),
        (place::CLIENTS, vec![0, 64, 65]),
        (place::COMMAND, vec![0, 12, 13, 24, 25, 256, 257]),
        (place::LOG, vec![0, 1, 1_024, 1_025]),
        (place::PAYLOAD, vec![11, 12, 256, 257]),
        (place::MESSAGE, vec![0, 4_096, 4_097]),
    ];
    for place in [place::EVENTS, place::WRITES, place::HISTORY] {
        ends.push((place, vec![0, 1, 65_536, 65_537, u64::MAX]));
    }
    for place in [place::COUNT_BYTES, place::RAFT_CHECKS] {
        ends.push((place, vec![0, 1, 2, u64::MAX]));
    }
    for place in [
        place::DELAY,
        place::CLIENT_TIMEOUT,
        place::BACKOFF,
        place::SPREAD,
    ] {
        ends.push((place, vec![0, LONGEST, LONGEST + 1, u64::MAX]));
    }
    ends
}

/// Questions 1 and 3 as document 01 has them; question 2 is the reference's.
fn refusal_of(case: &Case) -> u64 {
    let config = Config {
        heartbeat_interval: Duration::from_nanos(case[place::HEARTBEAT]),
        election_timeout_min: Duration::from_nanos(case[place::TIMEOUT_MIN]),
        election_timeout_max: Duration::from_nanos(case[place::TIMEOUT_MAX]),
        max_entries_per_message: case[place::PER_MESSAGE] as usize,
        max_entries_in_flight: case[place::IN_FLIGHT] as usize,
    };
    if !(1..=8).contains(&case[place::SERVERS]) {
        refusal::SERVERS
    } else if config.validate().is_err() {
        refusal::CONFIG
    } else if !within_limits(case) {
        refusal::SETTINGS
    } else {
        refusal::NONE
    }
}

fn within_limits(case: &Case) -> bool {
    let ranges = [
        (place::CLIENTS, 0..=64),
        (place::COMMAND, 0..=case[place::PAYLOAD]),
        (place::COUNT_BYTES, 0..=1),
        (place::RAFT_CHECKS, 0..=1),
        (place::LOG, 1..=1_024),
        (place::PAYLOAD, 12..=256),
        (place::MESSAGE, 0..=4_096),
        (place::EVENTS, 1..=65_536),
        (place::WRITES, 1..=65_536),
        (place::HISTORY, 1..=65_536),
    ];
    let durations = [
        place::HEARTBEAT,
        place::TIMEOUT_MIN,
        place::TIMEOUT_MAX,
        place::DELAY,
        place::CLIENT_TIMEOUT,
        place::BACKOFF,
        place::SPREAD,
    ];
    let within = |(place, range): &(usize, RangeInclusive<u64>)| range.contains(&case[*place]);
    ranges.iter().all(within) && durations.iter().all(|place| case[*place] <= LONGEST)
}

/// Document 01's formula, by its letters.
fn area_length(case: &Case) -> u64 {
    let (s, c) = (case[place::SERVERS], case[place::CLIENTS]);
    let (l, p, m) = (case[place::LOG], case[place::PAYLOAD], case[place::MESSAGE]);
    let (q, w, h) = (
        case[place::EVENTS],
        case[place::WRITES],
        case[place::HISTORY],
    );
    4_096
        + s * (512 + 2 * l * (p + 24) + w * (p + 32) + 16 * h)
        + q * (m + 64)
        + h * (2 * p + 160)
        + l * (p + 16)
        + 64 * c
}

#[cfg(test)]
mod tests {
    use super::*;

    #[test]
    fn every_answer_is_there() {
        let rows = settings().rows;
        for number in refusal::NONE..=refusal::SETTINGS {
            assert!(
                rows.iter().any(|row| row[20] == number),
                "no answer {number}"
            );
        }
        assert_eq!(rows[1][20..], [0, 4_096 + 644 + 64 + 184 + 28]);
        assert_eq!(rows[2][20..], [0, 480_931_840]);
    }
}
