//! What a run tells of itself as a whole.

use consensus::Payload;
use port::{Capacities, Metrics, Run, kinds};
use sim::leaves;

use crate::state::{Phase, State};

impl State {
    pub(crate) fn applied_at(&self, index: u64) -> Option<&Payload> {
        self.applied
            .get(usize::try_from(index.checked_sub(1)?).ok()?)
    }

    pub(crate) fn read_metrics(&self) -> Metrics {
        let discarded = self.servers.iter().map(|s| s.storage.discarded()).sum();
        let metrics = &self.metrics;
        Metrics {
            refusal: 0,
            messages: metrics.sent.messages,
            bytes: metrics.sent.bytes,
            entries: metrics.sent.entries,
            entries_to_leaders: metrics.entries_to_leaders,
            fsyncs: metrics.fsyncs,
            storage_bytes: metrics.storage_bytes,
            client_replies: metrics.client_replies,
            discarded,
            max_log_gaps: self.max_log_gaps,
        }
    }

    pub(crate) fn read_run(&self) -> Run {
        Run {
            refusal: 0,
            now: leaves::nanos(self.now),
            events: self.events,
            seed: self.seed,
            phase: match self.phase() {
                Phase::Closed => kinds::phase::CLOSED,
                Phase::Writing => kinds::phase::WRITING,
                Phase::Sending => kinds::phase::SENDING,
            },
            server: self.open.map_or(0, |open| open.slot as u64 + 1),
            input: self
                .open
                .map_or(kinds::input::NONE, |open| open.kind.number()),
            queued: self.queued,
            replies: self.replies.len() as u64,
            confirmations: self.confirmations.len() as u64,
            violations: self.checker.total(),
        }
    }

    pub(crate) fn read_settings(&self) -> Capacities {
        let limits = self.limits;
        Capacities {
            refusal: 0,
            servers: self.servers.len() as u64,
            clients: self.clients.len() as u64,
            log: limits.log,
            payload: limits.payload,
            message: limits.message,
            events: limits.events,
            writes: limits.writes,
            history: limits.history,
        }
    }
}
