//! A node of the judge under the reference's trait.

use std::collections::BTreeMap;

use crate::Carried;
use crate::same::{to_judge, to_reference};

/// A node of the judge under the reference's trait.
///
/// The one side's storage lends entries of its own type, so the other's are kept beside it: read
/// once at the start, and written with each write.
#[derive(Debug)]
pub struct Adapted<N> {
    node: N,
    log: BTreeMap<u64, node::Entry>,
}

/// The storage of the one side as the other sees it.
struct View<'a, S> {
    storage: &'a mut S,
    log: &'a mut BTreeMap<u64, node::Entry>,
}

impl<S: consensus::Storage> node::Storage for View<'_, S> {
    fn hard_state(&self) -> node::HardState {
        to_judge::hard_state(self.storage.hard_state())
    }

    fn set_hard_state(&mut self, state: node::HardState) {
        self.storage.set_hard_state(to_reference::hard_state(state));
    }

    fn entry(&self, index: node::LogIndex) -> Option<&node::Entry> {
        self.log.get(&index.0)
    }

    fn last_index(&self) -> node::LogIndex {
        to_judge::index(self.storage.last_index())
    }

    fn put(&mut self, index: node::LogIndex, entry: node::Entry) {
        self.log.insert(index.0, entry.clone());
        self.storage
            .put(to_reference::index(index), to_reference::entry(entry));
    }

    fn truncate(&mut self, from: node::LogIndex) {
        self.log.split_off(&from.0);
        self.storage.truncate(to_reference::index(from));
    }
}

impl<N: node::Consensus> Adapted<N> {
    /// Hands an input to the node.
    fn input<S: consensus::Storage, A>(
        &mut self,
        storage: &mut S,
        act: impl FnOnce(&mut N, &mut View<'_, S>) -> A,
    ) -> A {
        let log = &mut self.log;
        act(&mut self.node, &mut View { storage, log })
    }
}

/// What a server that starts finds.
fn found<S: consensus::Storage>(storage: &S) -> BTreeMap<u64, node::Entry> {
    let held = |index| {
        let entry = storage.entry(consensus::LogIndex(index))?.clone();
        Some((index, to_judge::entry(entry)))
    };
    (1..=storage.last_index().0).filter_map(held).collect()
}

/// The outputs, with their messages.
fn outputs<M>(outputs: Vec<node::Output<M>>) -> Vec<consensus::Output<Carried<M>>> {
    let outputs = outputs.into_iter();
    outputs
        .map(|output| to_reference::output(output, Carried))
        .collect()
}

impl<N: node::Consensus> consensus::Consensus for Adapted<N> {
    type Message = Carried<N::Message>;

    fn start<S: consensus::Storage>(
        id: consensus::NodeId,
        cluster: &[consensus::NodeId],
        config: &consensus::Config,
        seed: u64,
        storage: &mut S,
    ) -> (Self, Vec<consensus::Output<Carried<N::Message>>>) {
        let cluster: Vec<_> = cluster.iter().map(|id| to_judge::id(*id)).collect();
        let mut log = found(storage);
        let mut view = View {
            storage,
            log: &mut log,
        };
        let (id, config) = (to_judge::id(id), to_judge::config(config));
        let (node, outs) = N::start(id, &cluster, &config, seed, &mut view);
        (Adapted { node, log }, outputs(outs))
    }

    fn step<S: consensus::Storage>(
        &mut self,
        storage: &mut S,
        from: consensus::NodeId,
        message: Carried<N::Message>,
    ) -> Vec<consensus::Output<Carried<N::Message>>> {
        let Carried(message) = message;
        outputs(self.input(storage, |node, view| {
            node.step(view, to_judge::id(from), message)
        }))
    }

    fn on_timer<S: consensus::Storage>(
        &mut self,
        storage: &mut S,
        timer: consensus::Timer,
    ) -> Vec<consensus::Output<Carried<N::Message>>> {
        outputs(self.input(storage, |node, view| {
            node.on_timer(view, to_judge::timer(timer))
        }))
    }

    fn propose<S: consensus::Storage>(
        &mut self,
        storage: &mut S,
        command: consensus::Command,
    ) -> Result<Vec<consensus::Output<Carried<N::Message>>>, consensus::NotLeader> {
        let answer = self.input(storage, |node, view| {
            node.propose(view, to_judge::command(command))
        });
        answer.map(outputs).map_err(to_reference::not_leader)
    }

    fn confirm_leadership<S: consensus::Storage>(
        &mut self,
        storage: &mut S,
        request: consensus::RequestId,
    ) -> Result<Vec<consensus::Output<Carried<N::Message>>>, consensus::NotLeader> {
        let answer = self.input(storage, |node, view| {
            node.confirm_leadership(view, to_judge::request(request))
        });
        answer.map(outputs).map_err(to_reference::not_leader)
    }

    fn status(&self) -> consensus::Status {
        to_reference::status(self.node.status())
    }

    fn message_kind(message: &Carried<N::Message>) -> &'static str {
        N::message_kind(&message.0)
    }

    fn entry_count(message: &Carried<N::Message>) -> usize {
        N::entry_count(&message.0)
    }
}
