//! The start of a run.

use library::stream_seed;
use port::{Input, Limits, Opened, Refused, Settings, area_length};

use super::area::{Area, DELAY_FACTOR, NETWORK, NEXT_APPLY, WORKLOAD, below};
use crate::layout::Counts;

/// The longest duration.
const LONGEST: u64 = 1 << 40;

/// Questions 1 to 4.
fn refusal(area: &[u8], s: &Settings, limits: &Limits) -> u64 {
    let min = s.election_timeout_min;
    let valid = (1..=s.election_timeout_max).contains(&min)
        && (1..min).contains(&s.heartbeat_interval)
        && (1..=s.max_entries_in_flight).contains(&s.max_entries_per_message);
    if !(1..=8).contains(&s.servers) {
        1
    } else if !valid {
        2
    } else if !within_limits(s, limits) {
        3
    } else if (area.len() as u64) < area_length(s, limits) {
        4
    } else {
        0
    }
}

fn within_limits(s: &Settings, limits: &Limits) -> bool {
    let consensus = s.election_timeout_max.max(s.one_way_delay);
    let client = s.client_timeout.max(s.client_backoff);
    let tables = [limits.events, limits.writes, limits.history];
    consensus.max(client).max(s.start_spread) <= LONGEST
        && s.count_bytes.max(s.raft_checks) <= 1
        && s.clients <= 64
        && (1..=1_024).contains(&limits.log)
        && (12..=256).contains(&limits.payload)
        && limits.message <= 4_096
        && tables.iter().all(|places| (1..=65_536).contains(places))
        && s.command_bytes <= limits.payload
}

/// Begins a run.
pub fn start(area: &mut [u8], settings: &Settings, limits: &Limits, seed: u64) -> Opened {
    let refusal = refusal(area, settings, limits);
    if refusal != 0 {
        return Opened::refused(refusal);
    }
    let mut begun = zeros(settings, limits);
    header(&mut begun, settings, seed);
    let input = construct(&mut begun, settings, seed);
    if begun.over {
        return Opened::refused(10);
    }
    area[..begun.counts.bytes()].fill(0);
    begun.write_to(area);
    Opened { refusal: 0, input }
}

/// An area of which only the counts are written.
fn zeros(settings: &Settings, limits: &Limits) -> Area {
    let counts = [
        settings.servers,
        settings.clients,
        limits.log,
        limits.payload,
        limits.message,
        limits.events,
        limits.writes,
        limits.history,
    ];
    let header: Vec<u8> = counts.iter().flat_map(|n| n.to_le_bytes()).collect();
    let places = Counts::of(&header);
    let mut area = Area::of(&[header, vec![0; 8 * places.end() - 64]].concat());
    area.words[..8].copy_from_slice(&counts);
    area
}

/// Offsets, settings, generators, and what a server is before its first start.
fn header(area: &mut Area, s: &Settings, seed: u64) {
    let c = area.counts;
    let tables = [c.queue(), c.seen(), c.leaders(), c.replies()];
    let more = [c.confirmations(), c.applied(), c.first_client(), c.end()];
    let words = [[512, c.block()].as_slice(), &tables, &more].concat();
    let bytes = words.into_iter().map(|word| 8 * word).chain([c.bytes()]);
    let settings = [
        s.heartbeat_interval,
        s.election_timeout_min,
        s.election_timeout_max,
        s.max_entries_per_message,
        s.max_entries_in_flight,
        s.one_way_delay,
        s.command_bytes,
        s.client_timeout,
        s.client_backoff,
        s.count_bytes,
        s.raft_checks,
        s.start_spread,
        seed,
    ];
    let numbers = bytes.map(|bytes| bytes as u64).chain(settings);
    for (word, number) in area.words[8..].iter_mut().zip(numbers) {
        *word = number;
    }
    area.words[WORKLOAD] = stream_seed(seed, 2, 0, 0).seed;
    area.words[NETWORK] = stream_seed(seed, 1, 0, 0).seed;
    area.words[DELAY_FACTOR] = 1;
    for slot in 0..s.servers {
        let word = area.server(slot, NEXT_APPLY);
        area.words[word] = 1;
    }
}

/// Targets of the clients; then the first start, or the starts and the sends as events.
fn construct(area: &mut Area, s: &Settings, seed: u64) -> Input {
    for client in 0..s.clients {
        let word = area.client(client, 0);
        area.words[word] = area.below(WORKLOAD, s.servers);
    }
    if s.start_spread == 0 {
        area.owed = [1, 0];
        return area.go_on();
    }
    let mut startup = stream_seed(seed, 4, 0, 0).seed;
    for slot in 0..s.servers {
        let at = below(&mut startup, s.start_spread);
        area.push_at(at, 0, [slot, 0, 0, 0], &[]);
    }
    area.start_clients();
    Input::default()
}
