//! The leader of a cluster.

use std::cell::Cell;

use consensus::{
    Command, Config, Consensus, LogIndex, NodeId, NotLeader, Output, RequestId, Rng, Status,
    Storage, Term, Timer,
};
use sim::{Fault, SimConfig, SimTime, Simulation};

use crate::File;

/// Servers of the cluster.
const SERVERS: usize = 8;

/// Of each server 0 where it is stopped, else its role's number and 1, and its term.
type Cluster = [[u64; 2]; SERVERS];

/// Of each of eight servers 0 where it is stopped, else its role's number and 1, and its term;
/// then 1 where there is a leader, its id, its term.
pub(crate) fn leaders() -> File {
    let rows = clusters().into_iter().map(|cluster| {
        let leader = numbers::leader(leader(cluster));
        let told = cluster.into_iter().flatten();
        let words: Vec<u64> = told
            .chain([leader.present, leader.server, leader.term])
            .collect();
        words.try_into().expect("as many words as a row has")
    });
    File::new::<{ 2 * SERVERS + 3 }>("leader.bin", rows)
}

fn clusters() -> Vec<Cluster> {
    let mut one = [[1, 9]; SERVERS];
    one[4] = [3, 2];
    let mut stopped = one;
    stopped[4] = [0, 0];
    let mut equal = [[3, 7]; SERVERS];
    equal[7] = [3, 6];
    let mut clusters = vec![
        [[0, 0]; SERVERS],
        [[1, 5]; SERVERS],
        [[2, u64::MAX]; SERVERS],
        [[3, 0]; SERVERS],
        [[3, u64::MAX]; SERVERS],
        one,
        stopped,
        equal,
    ];
    let mut rng = Rng::new(23);
    for round in 0..40 {
        clusters.push(std::array::from_fn(|_| match rng.below(4) {
            0 => [0, 0],
            role if round % 2 == 0 => [role, rng.below(4)],
            role => [role, rng.next_u64() >> rng.below(64)],
        }));
    }
    clusters
}

thread_local! {
    /// What the servers that start next report.
    static CLUSTER: Cell<Cluster> = const { Cell::new([[0; 2]; SERVERS]) };
}

/// Whom the reference's simulation takes for the leader.
fn leader(cluster: Cluster) -> Option<(NodeId, Term)> {
    CLUSTER.set(cluster);
    let config = SimConfig {
        servers: SERVERS,
        ..SimConfig::default()
    };
    let mut simulation: Simulation<Fixed> = Simulation::new(config, 0);
    for (id, [role, _]) in (1..).zip(cluster) {
        if role == 0 {
            simulation.schedule(SimTime::ZERO, Fault::Crash(NodeId(id)));
        }
    }
    simulation.run_until(SimTime::ZERO);
    simulation.leader()
}

/// A node that does nothing and reports what it was given.
struct Fixed(Status);

impl Consensus for Fixed {
    type Message = ();

    fn start<S: Storage>(
        id: NodeId,
        _: &[NodeId],
        _: &Config,
        _: u64,
        _: &mut S,
    ) -> (Self, Vec<Output<()>>) {
        let [role, term] = CLUSTER.get()[id.0 as usize - 1];
        let status = Status {
            role: numbers::role_of(role.saturating_sub(1)),
            term: Term(term),
            leader: None,
            commit_index: LogIndex::ZERO,
        };
        (Fixed(status), Vec::new())
    }

    fn step<S: Storage>(&mut self, _: &mut S, _: NodeId, (): ()) -> Vec<Output<()>> {
        Vec::new()
    }

    fn on_timer<S: Storage>(&mut self, _: &mut S, _: Timer) -> Vec<Output<()>> {
        Vec::new()
    }

    fn propose<S: Storage>(&mut self, _: &mut S, _: Command) -> Result<Vec<Output<()>>, NotLeader> {
        Err(NotLeader { leader: None })
    }

    fn confirm_leadership<S: Storage>(
        &mut self,
        _: &mut S,
        _: RequestId,
    ) -> Result<Vec<Output<()>>, NotLeader> {
        Err(NotLeader { leader: None })
    }

    fn status(&self) -> Status {
        self.0
    }

    fn message_kind((): &()) -> &'static str {
        "none"
    }

    fn entry_count((): &()) -> usize {
        0
    }
}

#[cfg(test)]
mod tests {
    use super::*;

    #[test]
    fn the_last_of_the_highest_term_leads() {
        let rows = leaders().rows;
        let answer = |row: usize| rows[row][2 * SERVERS..].to_vec();
        assert_eq!(answer(0), [0, 0, 0]);
        assert_eq!(answer(2), [0, 0, 0]);
        assert_eq!(answer(4), [1, 8, u64::MAX]);
        assert_eq!(answer(5), [1, 5, 2]);
        assert_eq!(answer(6), [0, 0, 0]);
        assert_eq!(answer(7), [1, 7, 7]);
    }
}
