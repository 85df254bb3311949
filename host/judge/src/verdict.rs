//! One run, judged.

use node::Consensus;
use port::{Limits, Metrics, Port, Violation};

use crate::plan::{Plan, drive};
use crate::simulation::Simulation;
use crate::stop::{NodeFault, Raised, Refused, Stop};
use crate::watch::Watch;

/// What a run has shown.
#[derive(Debug, Clone, PartialEq, Eq)]
pub struct Verdict {
    /// The run's seed.
    pub seed: u64,
    /// The violations that are kept: the first 32, in order.
    pub violations: Vec<Violation>,
    /// All that were reported.
    pub reported: u64,
    /// Whether durability was checked at the end. Not, where the node broke its contract, or where
    /// the run came to no moment in which every server had applied what was acknowledged, though
    /// none was stuck: more clients than it can settle with, or a log that is full.
    pub settled: bool,
    /// Events taken.
    pub events: u64,
    /// The simulated time at the end, in nanoseconds.
    pub time: u64,
    /// The counters.
    pub metrics: Metrics,
    /// The capacities that were doubled, in order; the run was made again after each.
    pub raised: Vec<Raised>,
    /// Where the node broke its contract: the run ended there, unchecked.
    pub fault: Option<NodeFault>,
}

impl Verdict {
    /// Whether no check failed and the node kept its contract.
    pub fn passed(&self) -> bool {
        self.reported == 0 && self.fault.is_none()
    }
}

/// Makes the run of a plan and a seed with nodes of type `N` at a port of type `P`. The same three
/// give the same run.
///
/// # Errors
///
/// The plan's settings or limits are refused.
pub fn judge<N: Consensus, P: Port + Default>(
    plan: &Plan,
    seed: u64,
    watch: &mut impl Watch,
) -> Result<Verdict, Refused> {
    let mut limits = plan.limits;
    let mut raised = Vec::new();
    loop {
        match attempt::<N, P>(plan, &limits, seed, watch) {
            Ok(verdict) => return Ok(Verdict { raised, ..verdict }),
            Err(Failed::Full(raise)) => {
                watch.again(&raise);
                *raise.capacity.of(&mut limits) = raise.to;
                raised.push(raise);
            }
            Err(Failed::Refused(refused)) => return Err(refused),
        }
    }
}

/// Why a run has no verdict.
enum Failed {
    Full(Raised),
    Refused(Refused),
}

/// The run within these limits.
fn attempt<N: Consensus, P: Port + Default>(
    plan: &Plan,
    limits: &Limits,
    seed: u64,
    watch: &mut impl Watch,
) -> Result<Verdict, Failed> {
    let mut run = Simulation::<N, P, _>::new(P::default(), &plan.settings, limits, seed, watch);
    let made = run.start().and_then(|()| drive(plan, seed, &mut run));
    match made {
        Ok(settled) => Ok(told(run, settled, None)),
        Err(Stop::Node(fault)) => Ok(told(run, false, Some(fault))),
        Err(Stop::Full(raise)) => Err(Failed::Full(raise)),
        Err(Stop::Call(refused)) => Err(Failed::Refused(refused)),
    }
}

/// What a run that is over tells.
fn told<N: Consensus, P: Port, W: Watch>(
    mut run: Simulation<N, P, W>,
    settled: bool,
    fault: Option<NodeFault>,
) -> Verdict {
    let whole = run.run();
    Verdict {
        seed: whole.seed,
        settled,
        violations: run.violations(),
        reported: whole.violations,
        events: whole.events,
        time: whole.now,
        metrics: run.metrics(),
        raised: Vec::new(),
        fault,
    }
}
