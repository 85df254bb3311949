//! The nodes that the command knows: the user's own, and the embedded Raft with its mistakes.

use std::any::type_name;
use std::ops::Range;

use judge::{Happening, Plan, Raised, Refused, Verdict, Watch};
use node::{AppliesEarly, Consensus, Correct, Raft, TermNotSaved, TruncatesTooFar, VoteNotSaved};
use trace::{Difference, Options, Trace, replay};

use crate::Judging;

/// Something that is told a run. Unlike [`Watch`] it can be chosen while the program runs.
pub trait Listen {
    /// Something happened at a time in nanoseconds at a server; 0 where it is of none.
    fn happened(&mut self, time: u64, server: u64, what: &Happening<'_>);

    /// The run begins again: what was told is void.
    fn again(&mut self, raised: &Raised);
}

/// A listener as the watch of a run.
struct Listening<'a>(&'a mut dyn Listen);

impl Watch for Listening<'_> {
    fn happened(&mut self, time: u64, server: u64, what: &Happening<'_>) {
        self.0.happened(time, server, what);
    }

    fn again(&mut self, raised: &Raised) {
        self.0.again(raised);
    }
}

/// What is told of each verdict of a campaign.
type Tell<'a> = dyn Fn(&Verdict) + Sync + 'a;

/// Makes a campaign of a node.
type Campaign = fn(&Plan, Range<u64>, &Tell<'_>) -> Result<Vec<Verdict>, Refused>;

/// Makes one run of a node, told to a listener.
type Telling = fn(&Plan, u64, &mut dyn Listen) -> Result<Verdict, Refused>;

/// Makes the calls of a trace and compares their answers. Returns how many were made.
type Replay = fn(&Trace) -> Result<usize, Box<Difference>>;

/// A node by its name.
#[derive(Clone, Copy)]
pub struct Judged {
    /// What `--node` calls it.
    pub name: &'static str,
    campaign: Campaign,
    told: Telling,
}

impl Judged {
    fn new<N: Consensus, P: Judging>(name: &'static str) -> Self {
        Judged {
            name,
            campaign: |plan, seeds, tell| judge::campaign::<N, P>(plan, seeds, tell),
            told: |plan, seed, listener| judge::judge::<N, P>(plan, seed, &mut Listening(listener)),
        }
    }

    /// A campaign; each verdict is told as it comes.
    ///
    /// # Errors
    ///
    /// The plan's settings or limits are refused; so below.
    pub fn campaign(
        &self,
        plan: &Plan,
        seeds: Range<u64>,
        tell: &Tell<'_>,
    ) -> Result<Vec<Verdict>, Refused> {
        (self.campaign)(plan, seeds, tell)
    }

    /// One run, told to a listener.
    pub fn told(
        &self,
        plan: &Plan,
        seed: u64,
        listener: &mut dyn Listen,
    ) -> Result<Verdict, Refused> {
        (self.told)(plan, seed, listener)
    }
}

/// The nodes to choose from, and the calls that they are judged with.
pub struct Choice {
    /// The default one first.
    pub nodes: Vec<Judged>,
    /// The calls, by name.
    pub calls: &'static str,
    /// Makes calls that were recorded.
    pub replay: Replay,
}

impl Choice {
    /// The embedded nodes.
    pub fn embedded<P: Judging>() -> Self {
        Choice {
            nodes: vec![
                Judged::new::<Raft<Correct>, P>("correct"),
                Judged::new::<Raft<VoteNotSaved>, P>("vote-not-saved"),
                Judged::new::<Raft<TermNotSaved>, P>("term-not-saved"),
                Judged::new::<Raft<AppliesEarly>, P>("applies-early"),
                Judged::new::<Raft<TruncatesTooFar>, P>("truncates-too-far"),
            ],
            calls: P::NAME,
            replay: |trace| replay(trace, &mut P::default(), Options::default()),
        }
    }

    /// A user's node, and the embedded ones behind it.
    pub fn own<N: Consensus, P: Judging>() -> Self {
        let mut choice = Self::embedded::<P>();
        let own = Judged::new::<N, P>(short(type_name::<N>()));
        choice.nodes.insert(0, own);
        choice
    }

    /// The node of a name; the default where there is none.
    ///
    /// # Errors
    ///
    /// A line that says which there are.
    pub fn node(&self, name: Option<&str>) -> Result<Judged, String> {
        let Some(name) = name else {
            return Ok(self.nodes[0]);
        };
        let node = self.nodes.iter().find(|node| node.name == name);
        let names: Vec<&str> = self.nodes.iter().map(|node| node.name).collect();
        let names = names.join(", ");
        let unknown = || format!("no node is called '{name}'; there are {names}");
        node.copied().ok_or_else(unknown)
    }
}

/// A type's name without its path and parameters.
fn short(name: &'static str) -> &'static str {
    let plain = name.split('<').next().unwrap_or(name);
    plain.rsplit("::").next().unwrap_or(plain)
}

#[cfg(test)]
mod tests {
    use super::short;

    #[test]
    fn a_type_by_its_last_name() {
        assert_eq!(short("own_node::Primary"), "Primary");
        assert_eq!(short("a::b::Node<c::D>"), "Node");
    }
}
