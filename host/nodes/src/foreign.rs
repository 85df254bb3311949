//! A node of the reference's trait under the judge.

use std::collections::BTreeMap;

use crate::same::{to_judge, to_reference};

/// A node that was written for the reference's trait, under the judge, unchanged.
///
/// The one side's storage lends entries of its own type, so the other's are kept beside it: read
/// once at the start, and written with each write.
#[derive(Debug)]
pub struct Foreign<N> {
    node: N,
    log: BTreeMap<u64, consensus::Entry>,
}

/// The storage of the one side as the other sees it.
struct View<'a, S> {
    storage: &'a mut S,
    log: &'a mut BTreeMap<u64, consensus::Entry>,
}

impl<S: node::Storage> consensus::Storage for View<'_, S> {
    fn hard_state(&self) -> consensus::HardState {
        to_reference::hard_state(self.storage.hard_state())
    }

    fn set_hard_state(&mut self, state: consensus::HardState) {
        self.storage.set_hard_state(to_judge::hard_state(state));
    }

    fn entry(&self, index: consensus::LogIndex) -> Option<&consensus::Entry> {
        self.log.get(&index.0)
    }

    fn last_index(&self) -> consensus::LogIndex {
        to_reference::index(self.storage.last_index())
    }

    fn put(&mut self, index: consensus::LogIndex, entry: consensus::Entry) {
        self.log.insert(index.0, entry.clone());
        self.storage
            .put(to_judge::index(index), to_judge::entry(entry));
    }

    fn truncate(&mut self, from: consensus::LogIndex) {
        self.log.split_off(&from.0);
        self.storage.truncate(to_judge::index(from));
    }

    /// The driver syncs; a node that does it itself has done nothing.
    fn sync(&mut self) -> bool {
        false
    }
}

impl<N: consensus::Consensus> Foreign<N> {
    /// Hands an input to the node.
    fn input<S: node::Storage, A>(
        &mut self,
        storage: &mut S,
        act: impl FnOnce(&mut N, &mut View<'_, S>) -> A,
    ) -> A {
        let log = &mut self.log;
        act(&mut self.node, &mut View { storage, log })
    }
}

/// What a server that starts finds.
fn found<S: node::Storage>(storage: &S) -> BTreeMap<u64, consensus::Entry> {
    let held = |index| {
        let entry = storage.entry(node::LogIndex(index))?.clone();
        Some((index, to_reference::entry(entry)))
    };
    (1..=storage.last_index().0).filter_map(held).collect()
}

/// The outputs, with their messages.
fn outputs<M>(outputs: Vec<consensus::Output<M>>) -> Vec<node::Output<M>> {
    let outputs = outputs.into_iter();
    outputs
        .map(|output| to_judge::output(output, |message| message))
        .collect()
}

impl<N: consensus::Consensus> node::Consensus for Foreign<N> {
    type Message = N::Message;

    fn start<S: node::Storage>(
        id: node::NodeId,
        cluster: &[node::NodeId],
        config: &node::Config,
        seed: u64,
        storage: &mut S,
    ) -> (Self, Vec<node::Output<N::Message>>) {
        let cluster: Vec<_> = cluster.iter().map(|id| to_reference::id(*id)).collect();
        let mut log = found(storage);
        let mut view = View {
            storage,
            log: &mut log,
        };
        let (id, config) = (to_reference::id(id), to_reference::config(config));
        let (node, outs) = N::start(id, &cluster, &config, seed, &mut view);
        (Foreign { node, log }, outputs(outs))
    }

    fn step<S: node::Storage>(
        &mut self,
        storage: &mut S,
        from: node::NodeId,
        message: N::Message,
    ) -> Vec<node::Output<N::Message>> {
        outputs(self.input(storage, |node, view| {
            node.step(view, to_reference::id(from), message)
        }))
    }

    fn on_timer<S: node::Storage>(
        &mut self,
        storage: &mut S,
        timer: node::Timer,
    ) -> Vec<node::Output<N::Message>> {
        outputs(self.input(storage, |node, view| {
            node.on_timer(view, to_reference::timer(timer))
        }))
    }

    fn propose<S: node::Storage>(
        &mut self,
        storage: &mut S,
        command: node::Command,
    ) -> Result<Vec<node::Output<N::Message>>, node::NotLeader> {
        let answer = self.input(storage, |node, view| {
            node.propose(view, to_reference::command(command))
        });
        answer.map(outputs).map_err(to_judge::not_leader)
    }

    fn confirm_leadership<S: node::Storage>(
        &mut self,
        storage: &mut S,
        request: node::RequestId,
    ) -> Result<Vec<node::Output<N::Message>>, node::NotLeader> {
        let answer = self.input(storage, |node, view| {
            node.confirm_leadership(view, to_reference::request(request))
        });
        answer.map(outputs).map_err(to_judge::not_leader)
    }

    fn status(&self) -> node::Status {
        to_judge::status(self.node.status())
    }

    fn message_kind(message: &N::Message) -> &'static str {
        N::message_kind(message)
    }

    fn entry_count(message: &N::Message) -> usize {
        N::entry_count(message)
    }
}
