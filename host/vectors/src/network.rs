//! Links and routes.

use std::time::Duration;

use consensus::{NodeId, Rng};
use sim::leaves::{Network, Route};

use crate::File;
use crate::rng::step;

/// Operations on the links of eight servers, each with the links that it leaves blocked.
///
/// The operation: 0, 0, 0, groups partitions (one byte a group, bit i is server i + 1); 1, from,
/// to, 0 blocks; 2, from, to, 0 unblocks; 3 heals. Then the blocked links: bit 8 × (from − 1) +
/// to − 1.
pub(crate) fn links() -> File {
    let mut rng = Rng::new(10);
    let mut network = Network::new(Duration::from_nanos(1), Rng::new(0));
    let mut operations = vec![[0, 0, 0, 0b110_0000_0011]];
    for _ in 0..40 {
        let (from, to) = (1 + rng.below(8), 1 + rng.below(8));
        operations.push(match rng.below(8) {
            0 => [3, 0, 0, 0],
            1 => [0, 0, 0, rng.next_u64() & rng.next_u64() & rng.next_u64()],
            2..5 => [1, from, to, 0],
            _ => [2, from, to, 0],
        });
    }
    let rows = operations.into_iter().map(|[kind, from, to, groups]| {
        match kind {
            0 => network.partition(&members(groups)),
            1 => network.block(NodeId(from), NodeId(to)),
            2 => network.unblock(NodeId(from), NodeId(to)),
            _ => network.heal_links(),
        }
        [kind, from, to, groups, blocked(&mut network)]
    });
    File::new("links.bin", rows)
}

fn members(groups: u64) -> Vec<Vec<NodeId>> {
    let group = |mask: u8| {
        let bits = (0..8).filter(move |bit| mask >> bit & 1 == 1);
        bits.map(|bit| NodeId(bit + 1)).collect()
    };
    groups.to_le_bytes().map(group).to_vec()
}

/// A network without loss drops a message where its link is blocked.
fn blocked(network: &mut Network) -> u64 {
    let mut links = 0;
    for from in 0..8 {
        for to in 0..8 {
            if network.route(NodeId(from + 1), NodeId(to + 1)) == Route::Dropped {
                links |= 1 << (8 * from + to);
            }
        }
    }
    links
}

/// The rates of a network.
#[derive(Clone, Copy)]
struct Rates {
    delay: u64,
    loss: u32,
    duplication: u32,
    factor: u64,
    blocked: bool,
}

/// One-way delay, loss, duplication, factor, 1 where the link is blocked, state; 1 where the
/// message is delivered, its delay, 1 where it is copied, the copy's delay, draws, next state.
pub(crate) fn routes() -> File {
    let delays = [0, 1, 7, 7_500_000, 1 << 40];
    let rates = [0, 1, 500_000, 999_999, 1_000_000, u32::MAX];
    let factors = [1, 3, 10, 65_536];
    let mut rng = Rng::new(99);
    let mut rows = Vec::new();
    for place in 0..110 {
        let mut pick = |choices: usize| rng.below(choices as u64) as usize;
        let rates = Rates {
            delay: delays[pick(delays.len())],
            loss: rates[pick(rates.len())],
            duplication: rates[pick(rates.len())],
            factor: factors[pick(factors.len())],
            blocked: place % 11 == 0,
        };
        rows.push(route(rates, rng.next_u64()));
    }
    File::new("routes.bin", rows)
}

fn route(rates: Rates, state: u64) -> [u64; 12] {
    let (from, to) = (NodeId(1), NodeId(2));
    let mut network = Network::new(Duration::from_nanos(rates.delay), Rng::new(state));
    network.set_loss(rates.loss);
    network.set_duplication(rates.duplication);
    network.set_delay_factor(rates.factor);
    if rates.blocked {
        network.block(from, to);
    }
    let (delivered, delay, copied, second) = match network.route(from, to) {
        Route::Dropped => (0, 0, 0, 0),
        Route::Delivered { delay, duplicate } => (
            1,
            numbers::nanos(delay),
            duplicate.is_some().into(),
            duplicate.map_or(0, numbers::nanos),
        ),
    };
    network.heal_links();
    let draws = draws(&mut network, rates.delay, state);
    [
        rates.delay,
        rates.loss.into(),
        rates.duplication.into(),
        rates.factor,
        rates.blocked.into(),
        state,
        delivered,
        delay,
        copied,
        second,
        draws,
        state.wrapping_add(draws.wrapping_mul(step())),
    ]
}

/// How many draws the network has made since `state`. It keeps its generator to itself, so it is
/// told by which of its next messages are lost at a rate of a half.
fn draws(network: &mut Network, delay: u64, state: u64) -> u64 {
    const PROBES: usize = 64;
    network.set_loss(500_000);
    network.set_duplication(0);
    let probe = |_| network.route(NodeId(1), NodeId(2)) == Route::Dropped;
    let lost: Vec<bool> = (0..PROBES).map(probe).collect();
    let after = |draws: u64| {
        let mut rng = Rng::new(state.wrapping_add(draws.wrapping_mul(step())));
        let lost = move |_| {
            let lost = rng.below(1_000_000) < 500_000;
            if !lost {
                rng.below(delay + 1);
            }
            lost
        };
        (0..PROBES).map(lost).collect::<Vec<bool>>()
    };
    let fitting: Vec<u64> = (0..=4).filter(|draws| after(*draws) == lost).collect();
    match fitting[..] {
        [draws] => draws,
        _ => panic!("the number of draws is not told: {fitting:?}"),
    }
}

#[cfg(test)]
mod tests {
    use super::*;

    #[test]
    fn a_partition_blocks_as_document_01_has_it() {
        let first = &links().rows[0];
        assert_eq!(first[3], 0b110_0000_0011);
        assert_eq!(first[4].count_ones(), 7);
    }

    #[test]
    fn draws_are_none_to_four() {
        let mut seen = [0; 5];
        for row in routes().rows {
            seen[row[10] as usize] += 1;
            assert_eq!(row[10] == 0, row[4] == 1, "none only on a blocked link");
        }
        assert!(seen.iter().all(|count| *count > 0), "{seen:?}");
    }
}
