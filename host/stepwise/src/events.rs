//! Events and faults: simulation.rs's `process`, `deliver` and `apply_fault`.

use consensus::{NodeId, Role};
use port::Input;
use sim::{Fault, SimTime};

use crate::state::{Event, Kind, Owed, State};

impl State {
    /// Takes one event that is due, or raises the time. Returns whether one was taken, and the
    /// input that it opened; a message goes to `lend`.
    pub(crate) fn step(&mut self, deadline: SimTime, lend: impl FnOnce(&[u8])) -> (bool, Input) {
        if self.queue.peek_time().is_none_or(|time| time > deadline) {
            self.now = self.now.max(deadline);
            return (false, Input::default());
        }
        let (time, event) = self.queue.pop().expect("an event is due");
        self.queued -= 1;
        self.now = time;
        self.events += 1;
        (true, self.process(event, lend))
    }

    fn process(&mut self, event: Event, lend: impl FnOnce(&[u8])) -> Input {
        match event {
            Event::Start { slot } => {
                if !self.running(slot) && self.servers[slot].incarnation == 0 {
                    return self.open(slot, Kind::Start);
                }
            }
            Event::Deliver {
                from,
                to,
                message,
                entries,
            } => return self.deliver(from, to, &message, entries, lend),
            Event::Timer {
                slot,
                timer,
                generation,
            } => {
                if self.servers[slot].timer_generation[timer as usize] == generation {
                    return self.open_if_running(slot, Kind::Timer(timer));
                }
            }
            Event::Fault(fault) => return self.apply_fault(fault),
            Event::ClientArrive {
                slot,
                client,
                seq,
                attempt,
            } => return self.client_arrive(slot, client, seq, attempt),
            Event::ClientSend { client } => self.client_send(client),
            Event::ClientRedirect {
                client,
                attempt,
                leader,
            } => self.client_redirect(client, attempt, leader),
            Event::ClientRetry { client, attempt } => self.client_retry(client, attempt),
            Event::ClientReply { client, seq, index } => self.client_reply(client, seq, index),
            Event::ClientTimeout { client, attempt } => self.client_timeout(client, attempt),
        }
        Input::default()
    }

    fn deliver(
        &mut self,
        from: NodeId,
        to: NodeId,
        message: &[u8],
        entries: u64,
        lend: impl FnOnce(&[u8]),
    ) -> Input {
        let slot = to.0 as usize - 1;
        let Some(status) = self.servers[slot].status else {
            return Input::default();
        };
        if status.role != Role::Follower {
            self.metrics.entries_to_leaders += entries;
        }
        lend(message);
        let (from, length) = (from.0, message.len() as u64);
        let kind = Kind::Message {
            from,
            length,
            entries,
        };
        self.open(slot, kind)
    }

    fn apply_fault(&mut self, fault: Fault) -> Input {
        let slot = |id: NodeId| id.0 as usize - 1;
        match fault {
            Fault::Crash(id) if self.running(slot(id)) => self.stop(slot(id)),
            Fault::CrashDuringNextInput(id) if self.running(slot(id)) => {
                self.servers[slot(id)].crash_on_next_input = true;
            }
            Fault::Restart(id) if !self.running(slot(id)) => return self.restart(slot(id)),
            Fault::Crash(_) | Fault::CrashDuringNextInput(_) | Fault::Restart(_) => {}
            Fault::CrashLeader { downtime } => {
                if let Some((leader, _)) = self.leader() {
                    self.stop(slot(leader));
                    self.schedule(self.now + downtime, Fault::Restart(leader));
                }
            }
            Fault::Partition(groups) => self.network.partition(&groups),
            Fault::Block { from, to } => self.network.block(from, to),
            Fault::Unblock { from, to } => self.network.unblock(from, to),
            Fault::HealLinks => self.network.heal_links(),
            Fault::SetLoss(ppm) => self.network.set_loss(ppm),
            Fault::SetDuplication(ppm) => self.network.set_duplication(ppm),
            Fault::SetDelayFactor(factor) => self.network.set_delay_factor(factor.max(1)),
            Fault::HealAll => {
                self.network.heal_links();
                self.network.set_loss(0);
                self.network.set_duplication(0);
                self.network.set_delay_factor(1);
                self.owed = Owed::HealAll(0);
                return self.go_on();
            }
        }
        Input::default()
    }
}
