//! The judge's plan at the reference: the same node, seed, settings and faults.

use std::convert::Infallible;

use consensus::{Consensus, NodeId, RequestId, Rng, Storage};
use judge::{Driver, Fault, Plan, Verdict, drive};
use node::Timer;
use port::Chaos;
use sim::{Simulation, chaos_schedule, leaves};

/// The reference's simulation of nodes of its own trait.
pub struct Reference<N: Consensus> {
    sim: Simulation<N>,
}

/// The run of a plan and a seed at the reference, and what it has shown.
pub fn judge<N: Consensus>(plan: &Plan, seed: u64) -> Verdict {
    let settings = numbers::settings_of(&plan.settings);
    let mut reference = Reference {
        sim: Simulation::<N>::new(settings, seed),
    };
    let Ok(settled) = drive(plan, seed, &mut reference);
    let sim = &reference.sim;
    let kept = sim.violations().iter().map(Some);
    Verdict {
        seed,
        settled,
        violations: kept.map(numbers::violation).collect(),
        reported: sim.violation_count(),
        events: sim.events(),
        time: leaves::nanos(sim.now()),
        metrics: observe::metrics(sim),
        raised: Vec::new(),
        fault: None,
    }
}

impl<N: Consensus> Driver for Reference<N> {
    type Stop = Infallible;

    fn step(&mut self, deadline: u64) -> Result<bool, Infallible> {
        let mut looked = 0;
        let one = |_: &Simulation<N>| {
            looked += 1;
            looked > 1
        };
        Ok(self.sim.run_until_condition(leaves::time(deadline), one))
    }

    fn propose(&mut self, server: u64) -> Result<(), Infallible> {
        let _ = self.sim.propose(NodeId(server));
        Ok(())
    }

    fn fire_timer(&mut self, server: u64, timer: Timer) -> Result<(), Infallible> {
        let timer = match timer {
            Timer::Election => consensus::Timer::Election,
            Timer::Heartbeat => consensus::Timer::Heartbeat,
        };
        self.sim.fire_timer(NodeId(server), timer);
        Ok(())
    }

    fn confirm_leadership(&mut self, server: u64, request: u64) -> Result<(), Infallible> {
        let _ = self
            .sim
            .confirm_leadership(NodeId(server), RequestId(request));
        Ok(())
    }

    fn schedule(&mut self, at: u64, fault: &Fault) -> Result<(), Infallible> {
        let fault = numbers::fault_of(fault.kind, fault.first, fault.second, &fault.groups);
        self.sim.schedule(leaves::time(at), fault);
        Ok(())
    }

    fn chaos_schedule(
        &mut self,
        chaos: &Chaos,
        generator: u64,
    ) -> Result<Vec<(u64, Fault)>, Infallible> {
        let mut rng = Rng::new(generator);
        let drawn = chaos_schedule(self.sim.ids(), &numbers::chaos_of(chaos), &mut rng);
        let drawn = drawn.iter().map(|(at, fault)| {
            let (kind, first, second, groups) = numbers::fault(fault);
            let fault = Fault {
                kind,
                first,
                second,
                groups,
            };
            (leaves::nanos(*at), fault)
        });
        Ok(drawn.collect())
    }

    fn check_log_matching(&mut self) -> Result<(), Infallible> {
        self.sim.check_log_matching();
        Ok(())
    }

    fn check_durability(&mut self) -> Result<(), Infallible> {
        self.sim.check_durability();
        Ok(())
    }

    fn now(&mut self) -> u64 {
        leaves::nanos(self.sim.now())
    }

    fn leader(&mut self) -> Option<u64> {
        self.sim.leader().map(|(id, _)| id.0)
    }

    fn longest_log(&mut self) -> u64 {
        let ids = self.sim.ids().iter();
        let last = ids.map(|id| self.sim.storage(*id).last_index().0);
        last.max().unwrap_or_default()
    }

    fn acknowledged(&mut self) -> u64 {
        let replies = self.sim.replies().iter();
        replies.map(|reply| reply.index.0).max().unwrap_or_default()
    }

    fn applied_by_all(&mut self) -> u64 {
        let ids = self.sim.ids().iter();
        let applied = ids.map(|id| self.sim.applied(*id).0);
        applied.min().unwrap_or_default()
    }
}
