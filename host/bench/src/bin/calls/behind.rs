//! What stands behind the gate of every call, as a port: it is given the counts that the gate would have read.
#![allow(unsafe_code)]

use port::{
    Applied, AppliedEntry, Capacities, Chaos, Confirmation, Done, Drawn, Entry, HardState, Leader,
    Limits, Log, Metrics, Opened, Port, Refused, Reply, Run, Sealed, SentBy, Settings, Status,
    Stepped, Violation, kinds,
};
use trace::{Call, Trace};

/// The counts of an area.
#[derive(Clone, Copy)]
#[repr(C)]
struct Counts {
    servers: u64,
    clients: u64,
    limits: Limits,
}

#[link(name = "bench_calls", kind = "static")]
unsafe extern "C" {
    fn bench_start(
        area: *mut u8,
        area_length: usize,
        settings: Settings,
        limits: Limits,
        seed: u64,
    ) -> Opened;
    fn bench_step(
        area: *mut u8,
        area_length: usize,
        counts: Counts,
        deadline: u64,
        buffer: *mut u8,
        buffer_length: usize,
    ) -> Stepped;
    fn bench_propose(area: *mut u8, area_length: usize, counts: Counts, server: u64) -> Opened;
    fn bench_fire_timer(
        area: *mut u8,
        area_length: usize,
        counts: Counts,
        server: u64,
        timer: u64,
    ) -> Opened;
    fn bench_confirm_leadership(
        area: *mut u8,
        area_length: usize,
        counts: Counts,
        server: u64,
        request: u64,
    ) -> Opened;
    fn bench_schedule(
        area: *mut u8,
        area_length: usize,
        counts: Counts,
        time: u64,
        kind: u64,
        first: u64,
        second: u64,
        groups: *const u8,
        groups_length: usize,
    ) -> Done;
    fn bench_write_hard_state(
        area: *mut u8,
        area_length: usize,
        counts: Counts,
        term: u64,
        present: u64,
        vote: u64,
    ) -> Done;
    fn bench_write_put(
        area: *mut u8,
        area_length: usize,
        counts: Counts,
        index: u64,
        term: u64,
        kind: u64,
        payload: *const u8,
        payload_length: usize,
    ) -> Done;
    fn bench_write_truncate(area: *mut u8, area_length: usize, counts: Counts, from: u64) -> Done;
    fn bench_seal(
        area: *mut u8,
        area_length: usize,
        counts: Counts,
        refused: u64,
        present: u64,
        leader: u64,
    ) -> Sealed;
    fn bench_output_send(
        area: *mut u8,
        area_length: usize,
        counts: Counts,
        to: u64,
        message: *const u8,
        message_length: usize,
        entries: u64,
    ) -> Done;
    fn bench_output_set_timer(
        area: *mut u8,
        area_length: usize,
        counts: Counts,
        timer: u64,
        after: u64,
    ) -> Done;
    fn bench_output_cancel_timer(
        area: *mut u8,
        area_length: usize,
        counts: Counts,
        timer: u64,
    ) -> Done;
    fn bench_output_apply(
        area: *mut u8,
        area_length: usize,
        counts: Counts,
        index: u64,
        kind: u64,
        payload: *const u8,
        payload_length: usize,
    ) -> Done;
    fn bench_output_confirmed(
        area: *mut u8,
        area_length: usize,
        counts: Counts,
        request: u64,
        read_index: u64,
    ) -> Done;
    fn bench_output_lost(area: *mut u8, area_length: usize, counts: Counts, request: u64) -> Done;
    fn bench_end(
        area: *mut u8,
        area_length: usize,
        counts: Counts,
        role: u64,
        term: u64,
        present: u64,
        leader: u64,
        commit: u64,
    ) -> Opened;
    fn bench_check_log_matching(area: *mut u8, area_length: usize, counts: Counts) -> Done;
    fn bench_check_durability(area: *mut u8, area_length: usize, counts: Counts) -> Done;
    fn bench_read_status(
        area: *const u8,
        area_length: usize,
        counts: Counts,
        server: u64,
    ) -> Status;
    fn bench_read_hard_state(
        area: *const u8,
        area_length: usize,
        counts: Counts,
        server: u64,
    ) -> HardState;
    fn bench_read_log(area: *const u8, area_length: usize, counts: Counts, server: u64) -> Log;
    fn bench_read_entry(
        area: *const u8,
        area_length: usize,
        counts: Counts,
        server: u64,
        index: u64,
        buffer: *mut u8,
        buffer_length: usize,
    ) -> Entry;
    fn bench_read_leader(area: *const u8, area_length: usize, counts: Counts) -> Leader;
    fn bench_read_applied(
        area: *const u8,
        area_length: usize,
        counts: Counts,
        server: u64,
    ) -> Applied;
    fn bench_read_applied_entry(
        area: *const u8,
        area_length: usize,
        counts: Counts,
        index: u64,
        buffer: *mut u8,
        buffer_length: usize,
    ) -> AppliedEntry;
    fn bench_read_metrics(area: *const u8, area_length: usize, counts: Counts) -> Metrics;
    fn bench_read_sent_by(
        area: *const u8,
        area_length: usize,
        counts: Counts,
        server: u64,
    ) -> SentBy;
    fn bench_read_reply(area: *const u8, area_length: usize, counts: Counts, place: u64) -> Reply;
    fn bench_read_confirmation(
        area: *const u8,
        area_length: usize,
        counts: Counts,
        place: u64,
    ) -> Confirmation;
    fn bench_read_violation(
        area: *const u8,
        area_length: usize,
        counts: Counts,
        place: u64,
    ) -> Violation;
    fn bench_read_run(area: *const u8, area_length: usize, counts: Counts) -> Run;
    fn bench_read_settings(area: *const u8, area_length: usize, counts: Counts) -> Capacities;
}

/// The calls on areas of one trace's counts: only such areas may be lent to them.
pub struct Behind {
    counts: Counts,
}

impl Behind {
    /// For the areas of this trace.
    pub fn new(trace: &Trace) -> Self {
        let Call::Start {
            settings, limits, ..
        } = &trace.exchanges[0].call
        else {
            panic!("a run begins with a start");
        };
        let counts = Counts {
            servers: settings.servers,
            clients: settings.clients,
            limits: **limits,
        };
        Behind { counts }
    }
}

impl Port for Behind {
    fn start(
        &mut self,
        area: &mut [u8],
        settings: &Settings,
        limits: &Limits,
        seed: u64,
    ) -> Opened {
        unsafe { bench_start(area.as_mut_ptr(), area.len(), *settings, *limits, seed) }
    }

    fn step(&mut self, area: &mut [u8], deadline: u64, buffer: &mut [u8]) -> Stepped {
        unsafe {
            bench_step(
                area.as_mut_ptr(),
                area.len(),
                self.counts,
                deadline,
                buffer.as_mut_ptr(),
                buffer.len(),
            )
        }
    }

    fn propose(&mut self, area: &mut [u8], server: u64) -> Opened {
        unsafe { bench_propose(area.as_mut_ptr(), area.len(), self.counts, server) }
    }

    fn fire_timer(&mut self, area: &mut [u8], server: u64, timer: u64) -> Opened {
        unsafe { bench_fire_timer(area.as_mut_ptr(), area.len(), self.counts, server, timer) }
    }

    fn confirm_leadership(&mut self, area: &mut [u8], server: u64, request: u64) -> Opened {
        unsafe {
            bench_confirm_leadership(area.as_mut_ptr(), area.len(), self.counts, server, request)
        }
    }

    fn schedule(
        &mut self,
        area: &mut [u8],
        time: u64,
        kind: u64,
        first: u64,
        second: u64,
        groups: &[u8],
    ) -> Done {
        unsafe {
            bench_schedule(
                area.as_mut_ptr(),
                area.len(),
                self.counts,
                time,
                kind,
                first,
                second,
                groups.as_ptr(),
                groups.len(),
            )
        }
    }

    fn write_hard_state(&mut self, area: &mut [u8], term: u64, present: u64, vote: u64) -> Done {
        unsafe {
            bench_write_hard_state(
                area.as_mut_ptr(),
                area.len(),
                self.counts,
                term,
                present,
                vote,
            )
        }
    }

    fn write_put(
        &mut self,
        area: &mut [u8],
        index: u64,
        term: u64,
        kind: u64,
        payload: &[u8],
    ) -> Done {
        unsafe {
            bench_write_put(
                area.as_mut_ptr(),
                area.len(),
                self.counts,
                index,
                term,
                kind,
                payload.as_ptr(),
                payload.len(),
            )
        }
    }

    fn write_truncate(&mut self, area: &mut [u8], from: u64) -> Done {
        unsafe { bench_write_truncate(area.as_mut_ptr(), area.len(), self.counts, from) }
    }

    fn seal(&mut self, area: &mut [u8], refused: u64, present: u64, leader: u64) -> Sealed {
        unsafe {
            bench_seal(
                area.as_mut_ptr(),
                area.len(),
                self.counts,
                refused,
                present,
                leader,
            )
        }
    }

    fn output_send(&mut self, area: &mut [u8], to: u64, message: &[u8], entries: u64) -> Done {
        unsafe {
            bench_output_send(
                area.as_mut_ptr(),
                area.len(),
                self.counts,
                to,
                message.as_ptr(),
                message.len(),
                entries,
            )
        }
    }

    fn output_set_timer(&mut self, area: &mut [u8], timer: u64, after: u64) -> Done {
        unsafe { bench_output_set_timer(area.as_mut_ptr(), area.len(), self.counts, timer, after) }
    }

    fn output_cancel_timer(&mut self, area: &mut [u8], timer: u64) -> Done {
        unsafe { bench_output_cancel_timer(area.as_mut_ptr(), area.len(), self.counts, timer) }
    }

    fn output_apply(&mut self, area: &mut [u8], index: u64, kind: u64, payload: &[u8]) -> Done {
        unsafe {
            bench_output_apply(
                area.as_mut_ptr(),
                area.len(),
                self.counts,
                index,
                kind,
                payload.as_ptr(),
                payload.len(),
            )
        }
    }

    fn output_confirmed(&mut self, area: &mut [u8], request: u64, read_index: u64) -> Done {
        unsafe {
            bench_output_confirmed(
                area.as_mut_ptr(),
                area.len(),
                self.counts,
                request,
                read_index,
            )
        }
    }

    fn output_lost(&mut self, area: &mut [u8], request: u64) -> Done {
        unsafe { bench_output_lost(area.as_mut_ptr(), area.len(), self.counts, request) }
    }

    fn end(
        &mut self,
        area: &mut [u8],
        role: u64,
        term: u64,
        present: u64,
        leader: u64,
        commit: u64,
    ) -> Opened {
        unsafe {
            bench_end(
                area.as_mut_ptr(),
                area.len(),
                self.counts,
                role,
                term,
                present,
                leader,
                commit,
            )
        }
    }

    fn check_log_matching(&mut self, area: &mut [u8]) -> Done {
        unsafe { bench_check_log_matching(area.as_mut_ptr(), area.len(), self.counts) }
    }

    fn check_durability(&mut self, area: &mut [u8]) -> Done {
        unsafe { bench_check_durability(area.as_mut_ptr(), area.len(), self.counts) }
    }

    fn read_status(&mut self, area: &[u8], server: u64) -> Status {
        unsafe { bench_read_status(area.as_ptr(), area.len(), self.counts, server) }
    }

    fn read_hard_state(&mut self, area: &[u8], server: u64) -> HardState {
        unsafe { bench_read_hard_state(area.as_ptr(), area.len(), self.counts, server) }
    }

    fn read_log(&mut self, area: &[u8], server: u64) -> Log {
        unsafe { bench_read_log(area.as_ptr(), area.len(), self.counts, server) }
    }

    fn read_entry(&mut self, area: &[u8], server: u64, index: u64, buffer: &mut [u8]) -> Entry {
        unsafe {
            bench_read_entry(
                area.as_ptr(),
                area.len(),
                self.counts,
                server,
                index,
                buffer.as_mut_ptr(),
                buffer.len(),
            )
        }
    }

    fn read_leader(&mut self, area: &[u8]) -> Leader {
        unsafe { bench_read_leader(area.as_ptr(), area.len(), self.counts) }
    }

    fn read_applied(&mut self, area: &[u8], server: u64) -> Applied {
        unsafe { bench_read_applied(area.as_ptr(), area.len(), self.counts, server) }
    }

    fn read_applied_entry(&mut self, area: &[u8], index: u64, buffer: &mut [u8]) -> AppliedEntry {
        unsafe {
            bench_read_applied_entry(
                area.as_ptr(),
                area.len(),
                self.counts,
                index,
                buffer.as_mut_ptr(),
                buffer.len(),
            )
        }
    }

    fn read_metrics(&mut self, area: &[u8]) -> Metrics {
        unsafe { bench_read_metrics(area.as_ptr(), area.len(), self.counts) }
    }

    fn read_sent_by(&mut self, area: &[u8], server: u64) -> SentBy {
        unsafe { bench_read_sent_by(area.as_ptr(), area.len(), self.counts, server) }
    }

    fn read_reply(&mut self, area: &[u8], place: u64) -> Reply {
        unsafe { bench_read_reply(area.as_ptr(), area.len(), self.counts, place) }
    }

    fn read_confirmation(&mut self, area: &[u8], place: u64) -> Confirmation {
        unsafe { bench_read_confirmation(area.as_ptr(), area.len(), self.counts, place) }
    }

    fn read_violation(&mut self, area: &[u8], place: u64) -> Violation {
        unsafe { bench_read_violation(area.as_ptr(), area.len(), self.counts, place) }
    }

    fn read_run(&mut self, area: &[u8]) -> Run {
        unsafe { bench_read_run(area.as_ptr(), area.len(), self.counts) }
    }

    fn read_settings(&mut self, area: &[u8]) -> Capacities {
        unsafe { bench_read_settings(area.as_ptr(), area.len(), self.counts) }
    }

    fn chaos_schedule(
        &mut self,
        _servers: &[u8],
        _chaos: &Chaos,
        _generator: &mut u64,
        _list: &mut [u8],
    ) -> Drawn {
        Drawn::refused(kinds::refusal::SERVERS)
    }
}
