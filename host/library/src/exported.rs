//! The static library's declarations, the only file with `unsafe`: a slice goes as its address and its length, a struct by value.
//!
//! Every call may be made with any numbers and any bytes: none of them requires anything, and none writes past what it
//! is lent.

#![allow(unsafe_code)]

use port::{
    Applied, AppliedEntry, Capacities, Chaos, Confirmation, Done, Drawn, Entry, HardState, Leader,
    Limits, Log, Metrics, Opened, Port, Reply, Run, Sealed, SentBy, Settings, Status, Stepped,
    Violation,
};

/// The length of an area in bytes.
#[derive(Debug, Clone, Copy, PartialEq, Eq)]
#[repr(C)]
pub struct Length {
    /// The refusal.
    pub refusal: u64,
    /// The length.
    pub length: u64,
}

/// The seed of a stream.
#[derive(Debug, Clone, Copy, PartialEq, Eq)]
#[repr(C)]
pub struct Seed {
    /// The refusal.
    pub refusal: u64,
    /// The seed.
    pub seed: u64,
}

/// A schedule of faults.
#[derive(Debug, Clone, Copy, PartialEq, Eq)]
#[repr(C)]
pub struct Schedule {
    /// The refusal.
    pub refusal: u64,
    /// Entries of its list.
    pub count: u64,
    /// The generator after its draws.
    pub generator: u64,
}

#[link(name = "api", kind = "static")]
unsafe extern "C" {
    fn sim_start(
        area: *mut u8,
        area_length: usize,
        settings: Settings,
        limits: Limits,
        seed: u64,
    ) -> Opened;
    fn sim_step(
        area: *mut u8,
        area_length: usize,
        deadline: u64,
        buffer: *mut u8,
        buffer_length: usize,
    ) -> Stepped;
    fn sim_propose(area: *mut u8, area_length: usize, server: u64) -> Opened;
    fn sim_fire_timer(area: *mut u8, area_length: usize, server: u64, timer: u64) -> Opened;
    fn sim_confirm_leadership(
        area: *mut u8,
        area_length: usize,
        server: u64,
        request: u64,
    ) -> Opened;
    fn sim_schedule(
        area: *mut u8,
        area_length: usize,
        time: u64,
        kind: u64,
        first: u64,
        second: u64,
        groups: *const u8,
        groups_length: usize,
    ) -> Done;
    fn sim_write_hard_state(
        area: *mut u8,
        area_length: usize,
        term: u64,
        present: u64,
        vote: u64,
    ) -> Done;
    fn sim_write_put(
        area: *mut u8,
        area_length: usize,
        index: u64,
        term: u64,
        kind: u64,
        payload: *const u8,
        payload_length: usize,
    ) -> Done;
    fn sim_write_truncate(area: *mut u8, area_length: usize, from: u64) -> Done;
    fn sim_seal(
        area: *mut u8,
        area_length: usize,
        refused: u64,
        present: u64,
        leader: u64,
    ) -> Sealed;
    fn sim_output_send(
        area: *mut u8,
        area_length: usize,
        to: u64,
        message: *const u8,
        message_length: usize,
        entries: u64,
    ) -> Done;
    fn sim_output_set_timer(area: *mut u8, area_length: usize, timer: u64, after: u64) -> Done;
    fn sim_output_cancel_timer(area: *mut u8, area_length: usize, timer: u64) -> Done;
    fn sim_output_apply(
        area: *mut u8,
        area_length: usize,
        index: u64,
        kind: u64,
        payload: *const u8,
        payload_length: usize,
    ) -> Done;
    fn sim_output_confirmed(
        area: *mut u8,
        area_length: usize,
        request: u64,
        read_index: u64,
    ) -> Done;
    fn sim_output_lost(area: *mut u8, area_length: usize, request: u64) -> Done;
    fn sim_end(
        area: *mut u8,
        area_length: usize,
        role: u64,
        term: u64,
        present: u64,
        leader: u64,
        commit: u64,
    ) -> Opened;
    fn sim_check_log_matching(area: *mut u8, area_length: usize) -> Done;
    fn sim_check_durability(area: *mut u8, area_length: usize) -> Done;
    fn sim_read_status(area: *const u8, area_length: usize, server: u64) -> Status;
    fn sim_read_hard_state(area: *const u8, area_length: usize, server: u64) -> HardState;
    fn sim_read_log(area: *const u8, area_length: usize, server: u64) -> Log;
    fn sim_read_entry(
        area: *const u8,
        area_length: usize,
        server: u64,
        index: u64,
        buffer: *mut u8,
        buffer_length: usize,
    ) -> Entry;
    fn sim_read_leader(area: *const u8, area_length: usize) -> Leader;
    fn sim_read_applied(area: *const u8, area_length: usize, server: u64) -> Applied;
    fn sim_read_applied_entry(
        area: *const u8,
        area_length: usize,
        index: u64,
        buffer: *mut u8,
        buffer_length: usize,
    ) -> AppliedEntry;
    fn sim_read_metrics(area: *const u8, area_length: usize) -> Metrics;
    fn sim_read_sent_by(area: *const u8, area_length: usize, server: u64) -> SentBy;
    fn sim_read_reply(area: *const u8, area_length: usize, place: u64) -> Reply;
    fn sim_read_confirmation(area: *const u8, area_length: usize, place: u64) -> Confirmation;
    fn sim_read_violation(area: *const u8, area_length: usize, place: u64) -> Violation;
    fn sim_read_run(area: *const u8, area_length: usize) -> Run;
    fn sim_read_settings(area: *const u8, area_length: usize) -> Capacities;
    fn sim_area_length(servers: u64, clients: u64, limits: Limits) -> Length;
    fn sim_stream_seed(seed: u64, stream: u64, server: u64, incarnation: u64) -> Seed;
    fn sim_chaos_schedule(
        servers: *const u8,
        servers_length: usize,
        chaos: Chaos,
        generator: u64,
        list: *mut u8,
        list_length: usize,
    ) -> Schedule;
}

/// The length of the area for so many servers and clients and these limits.
pub fn area_length(servers: u64, clients: u64, limits: &Limits) -> Length {
    unsafe { sim_area_length(servers, clients, *limits) }
}

/// The seed of a stream: 0 faults, 1 network, 2 workload, 3 scenario, 4 startup, 5 a server's.
pub fn stream_seed(seed: u64, stream: u64, server: u64, incarnation: u64) -> Seed {
    unsafe { sim_stream_seed(seed, stream, server, incarnation) }
}

/// A random schedule of faults, drawn with a generator of this state.
pub fn chaos_schedule(servers: &[u8], chaos: &Chaos, generator: u64, list: &mut [u8]) -> Schedule {
    unsafe {
        sim_chaos_schedule(
            servers.as_ptr(),
            servers.len(),
            *chaos,
            generator,
            list.as_mut_ptr(),
            list.len(),
        )
    }
}

/// The proved calls.
#[derive(Debug, Clone, Copy, Default)]
pub struct Library;

impl Port for Library {
    fn start(
        &mut self,
        area: &mut [u8],
        settings: &Settings,
        limits: &Limits,
        seed: u64,
    ) -> Opened {
        unsafe { sim_start(area.as_mut_ptr(), area.len(), *settings, *limits, seed) }
    }

    fn step(&mut self, area: &mut [u8], deadline: u64, buffer: &mut [u8]) -> Stepped {
        unsafe {
            sim_step(
                area.as_mut_ptr(),
                area.len(),
                deadline,
                buffer.as_mut_ptr(),
                buffer.len(),
            )
        }
    }

    fn propose(&mut self, area: &mut [u8], server: u64) -> Opened {
        unsafe { sim_propose(area.as_mut_ptr(), area.len(), server) }
    }

    fn fire_timer(&mut self, area: &mut [u8], server: u64, timer: u64) -> Opened {
        unsafe { sim_fire_timer(area.as_mut_ptr(), area.len(), server, timer) }
    }

    fn confirm_leadership(&mut self, area: &mut [u8], server: u64, request: u64) -> Opened {
        unsafe { sim_confirm_leadership(area.as_mut_ptr(), area.len(), server, request) }
    }

    fn schedule(
        &mut self,
        area: &mut [u8],
        time: u64,
        kind: u64,
        first: u64,
        second: u64,
        groups: &[u8],
    ) -> Done {
        unsafe {
            sim_schedule(
                area.as_mut_ptr(),
                area.len(),
                time,
                kind,
                first,
                second,
                groups.as_ptr(),
                groups.len(),
            )
        }
    }

    fn write_hard_state(&mut self, area: &mut [u8], term: u64, present: u64, vote: u64) -> Done {
        unsafe { sim_write_hard_state(area.as_mut_ptr(), area.len(), term, present, vote) }
    }

    fn write_put(
        &mut self,
        area: &mut [u8],
        index: u64,
        term: u64,
        kind: u64,
        payload: &[u8],
    ) -> Done {
        unsafe {
            sim_write_put(
                area.as_mut_ptr(),
                area.len(),
                index,
                term,
                kind,
                payload.as_ptr(),
                payload.len(),
            )
        }
    }

    fn write_truncate(&mut self, area: &mut [u8], from: u64) -> Done {
        unsafe { sim_write_truncate(area.as_mut_ptr(), area.len(), from) }
    }

    fn seal(&mut self, area: &mut [u8], refused: u64, present: u64, leader: u64) -> Sealed {
        unsafe { sim_seal(area.as_mut_ptr(), area.len(), refused, present, leader) }
    }

    fn output_send(&mut self, area: &mut [u8], to: u64, message: &[u8], entries: u64) -> Done {
        unsafe {
            sim_output_send(
                area.as_mut_ptr(),
                area.len(),
                to,
                message.as_ptr(),
                message.len(),
                entries,
            )
        }
    }

    fn output_set_timer(&mut self, area: &mut [u8], timer: u64, after: u64) -> Done {
        unsafe { sim_output_set_timer(area.as_mut_ptr(), area.len(), timer, after) }
    }

    fn output_cancel_timer(&mut self, area: &mut [u8], timer: u64) -> Done {
        unsafe { sim_output_cancel_timer(area.as_mut_ptr(), area.len(), timer) }
    }

    fn output_apply(&mut self, area: &mut [u8], index: u64, kind: u64, payload: &[u8]) -> Done {
        unsafe {
            sim_output_apply(
                area.as_mut_ptr(),
                area.len(),
                index,
                kind,
                payload.as_ptr(),
                payload.len(),
            )
        }
    }

    fn output_confirmed(&mut self, area: &mut [u8], request: u64, read_index: u64) -> Done {
        unsafe { sim_output_confirmed(area.as_mut_ptr(), area.len(), request, read_index) }
    }

    fn output_lost(&mut self, area: &mut [u8], request: u64) -> Done {
        unsafe { sim_output_lost(area.as_mut_ptr(), area.len(), request) }
    }

    fn end(
        &mut self,
        area: &mut [u8],
        role: u64,
        term: u64,
        present: u64,
        leader: u64,
        commit: u64,
    ) -> Opened {
        unsafe {
            sim_end(
                area.as_mut_ptr(),
                area.len(),
                role,
                term,
                present,
                leader,
                commit,
            )
        }
    }

    fn check_log_matching(&mut self, area: &mut [u8]) -> Done {
        unsafe { sim_check_log_matching(area.as_mut_ptr(), area.len()) }
    }

    fn check_durability(&mut self, area: &mut [u8]) -> Done {
        unsafe { sim_check_durability(area.as_mut_ptr(), area.len()) }
    }

    fn read_status(&mut self, area: &[u8], server: u64) -> Status {
        unsafe { sim_read_status(area.as_ptr(), area.len(), server) }
    }

    fn read_hard_state(&mut self, area: &[u8], server: u64) -> HardState {
        unsafe { sim_read_hard_state(area.as_ptr(), area.len(), server) }
    }

    fn read_log(&mut self, area: &[u8], server: u64) -> Log {
        unsafe { sim_read_log(area.as_ptr(), area.len(), server) }
    }

    fn read_entry(&mut self, area: &[u8], server: u64, index: u64, buffer: &mut [u8]) -> Entry {
        unsafe {
            sim_read_entry(
                area.as_ptr(),
                area.len(),
                server,
                index,
                buffer.as_mut_ptr(),
                buffer.len(),
            )
        }
    }

    fn read_leader(&mut self, area: &[u8]) -> Leader {
        unsafe { sim_read_leader(area.as_ptr(), area.len()) }
    }

    fn read_applied(&mut self, area: &[u8], server: u64) -> Applied {
        unsafe { sim_read_applied(area.as_ptr(), area.len(), server) }
    }

    fn read_applied_entry(&mut self, area: &[u8], index: u64, buffer: &mut [u8]) -> AppliedEntry {
        unsafe {
            sim_read_applied_entry(
                area.as_ptr(),
                area.len(),
                index,
                buffer.as_mut_ptr(),
                buffer.len(),
            )
        }
    }

    fn read_metrics(&mut self, area: &[u8]) -> Metrics {
        unsafe { sim_read_metrics(area.as_ptr(), area.len()) }
    }

    fn read_sent_by(&mut self, area: &[u8], server: u64) -> SentBy {
        unsafe { sim_read_sent_by(area.as_ptr(), area.len(), server) }
    }

    fn read_reply(&mut self, area: &[u8], place: u64) -> Reply {
        unsafe { sim_read_reply(area.as_ptr(), area.len(), place) }
    }

    fn read_confirmation(&mut self, area: &[u8], place: u64) -> Confirmation {
        unsafe { sim_read_confirmation(area.as_ptr(), area.len(), place) }
    }

    fn read_violation(&mut self, area: &[u8], place: u64) -> Violation {
        unsafe { sim_read_violation(area.as_ptr(), area.len(), place) }
    }

    fn read_run(&mut self, area: &[u8]) -> Run {
        unsafe { sim_read_run(area.as_ptr(), area.len()) }
    }

    fn read_settings(&mut self, area: &[u8]) -> Capacities {
        unsafe { sim_read_settings(area.as_ptr(), area.len()) }
    }

    fn chaos_schedule(
        &mut self,
        servers: &[u8],
        chaos: &Chaos,
        generator: &mut u64,
        list: &mut [u8],
    ) -> Drawn {
        let drawn = chaos_schedule(servers, chaos, *generator, list);
        let Schedule { refusal, count, .. } = drawn;
        if refusal == 0 {
            *generator = drawn.generator;
        }
        Drawn { refusal, count }
    }
}
