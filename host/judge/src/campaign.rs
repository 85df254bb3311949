//! Many seeds.

use std::num::NonZero;
use std::ops::Range;
use std::sync::atomic::{AtomicBool, AtomicU64, Ordering};
use std::thread;

use node::Consensus;
use port::Port;

use crate::plan::Plan;
use crate::stop::Refused;
use crate::verdict::{Verdict, judge};

/// Judges each seed, on every processor. `progress` is told each verdict as it comes, from any
/// thread. Returns the verdicts in order of their seeds.
///
/// # Errors
///
/// The plan's settings or limits are refused.
pub fn campaign<N: Consensus, P: Port + Default>(
    plan: &Plan,
    seeds: Range<u64>,
    progress: impl Fn(&Verdict) + Sync,
) -> Result<Vec<Verdict>, Refused> {
    let next = AtomicU64::new(seeds.start);
    let refused = AtomicBool::new(false);
    let worker = || {
        let mut verdicts = Vec::new();
        while !refused.load(Ordering::Relaxed) {
            let seed = next.fetch_add(1, Ordering::Relaxed);
            if !seeds.contains(&seed) {
                break;
            }
            let verdict = judge::<N, P>(plan, seed, &mut ());
            let verdict = verdict.inspect_err(|_| refused.store(true, Ordering::Relaxed))?;
            progress(&verdict);
            verdicts.push(verdict);
        }
        Ok(verdicts)
    };
    let workers = thread::available_parallelism().map_or(1, NonZero::get);
    let mut verdicts = Vec::new();
    thread::scope(|scope| {
        let handles: Vec<_> = (0..workers).map(|_| scope.spawn(worker)).collect();
        for handle in handles {
            verdicts.extend(handle.join().expect("a node's panic is its fault")?);
        }
        Ok(())
    })?;
    verdicts.sort_by_key(|verdict: &Verdict| verdict.seed);
    Ok(verdicts)
}
