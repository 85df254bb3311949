//! The calls that take no area, at the ends of their ranges: the length of an area, the seed of a stream. A schedule is
//! in the other tests.

#![cfg(feature = "linked")]

use compare::plan::Plan;
use consensus::NodeId;
use library::{Length, area_length, stream_seed};
use port::{Limits, Settings};
use sim::Stream;

/// Counts in their ranges, at their ends, and one past them: S, C, then the limits in their order.
const COUNTS: [[u64; 5]; 8] = [
    [1, 3, 8, 0, 9],
    [0, 5, 64, 65, u64::MAX],
    [1, 12, 1_024, 0, 1_025],
    [12, 100, 256, 11, 257],
    [0, 24, 4_096, 4_097, u64::MAX],
    [1, 300, 65_536, 0, 65_537],
    [1, 40, 65_536, 0, 65_537],
    [1, 50, 65_536, 0, u64::MAX],
];

/// How many of the five are in range.
const IN_RANGE: u64 = 3;

/// The number of the question that refuses the choices, by place in the rows above.
fn refusal(choices: &[u64; 8]) -> u64 {
    let outside = choices.map(|choice| choice >= IN_RANGE);
    match outside {
        [true, ..] => 1,
        _ if outside.contains(&true) => 3,
        _ => 0,
    }
}

#[test]
fn lengths_of_areas() {
    let mut plan = Plan::new(1);
    let mut met = [0; 4];
    for _ in 0..100_000 {
        let wild = plan.one_in(2);
        let choices = [0; 8].map(|_| {
            let past = wild && plan.one_in(5);
            plan.below(if past { 5 } else { IN_RANGE })
        });
        let counts: Vec<u64> = (0..8).map(|i| COUNTS[i][choices[i] as usize]).collect();
        let [
            servers,
            clients,
            log,
            payload,
            message,
            events,
            writes,
            history,
        ] = counts[..]
        else {
            panic!("there are eight counts");
        };
        let limits = Limits {
            log,
            payload,
            message,
            events,
            writes,
            history,
        };
        let settings = Settings {
            servers,
            clients,
            ..Settings::default()
        };
        let refusal = refusal(&choices);
        let length = if refusal == 0 {
            port::area_length(&settings, &limits)
        } else {
            0
        };
        let expected = Length { refusal, length };
        assert_eq!(area_length(servers, clients, &limits), expected);
        met[refusal as usize] += 1;
    }
    assert!(met[0] > 10_000 && met[1] > 1_000 && met[3] > 1_000);
}

#[test]
fn seeds_of_streams() {
    let mut plan = Plan::new(2);
    let whole = [
        Stream::Faults,
        Stream::Network,
        Stream::Workload,
        Stream::Scenario,
        Stream::Startup,
    ];
    for _ in 0..20_000 {
        let any = plan.any();
        let seed = plan.pick(&[0, 1, any, u64::MAX]);
        for (number, stream) in whole.into_iter().enumerate() {
            let answer = stream_seed(seed, number as u64, 0, 0);
            let expected = sim::stream_seed(seed, stream);
            assert_eq!((answer.refusal, answer.seed), (0, expected));
        }
        let any = plan.any();
        let server = plan.pick(&[0, 1, 8, 1 << 32, any]);
        let incarnation = plan.pick(&[0, 1, 1 << 24, u32::MAX, any as u32]);
        let id = NodeId(server);
        let answer = stream_seed(seed, 5, server, incarnation.into());
        let expected = sim::stream_seed(seed, Stream::Server { id, incarnation });
        assert_eq!((answer.refusal, answer.seed), (0, expected));
    }
}

#[test]
fn streams_and_incarnations_that_there_are_not() {
    for (stream, incarnation) in [(6, 0), (u64::MAX, 0), (5, 1 << 32), (5, u64::MAX)] {
        let answer = stream_seed(7, stream, 1, incarnation);
        assert_eq!((answer.refusal, answer.seed), (9, 0));
    }
}
