//! How fast the proved code is, beside plain Rust where the reference has no such function. Run it in a release build.

use std::hint::black_box;
use std::time::{Duration, Instant};

use bench::area::{Counts, area};
use bench::{ENTRIES, QUEUED, fastest, zeros};
use consensus::Rng;

/// The exported functions of the crate `bench` of Rattle: a slice goes as its address and its length.
#[allow(unsafe_code)]
mod exported {
    #[link(name = "bench", kind = "static")]
    unsafe extern "C" {
        fn bench_all_zero(s: *const u8, length: usize) -> bool;
        fn bench_equal(a: *const u8, a_length: usize, b: *const u8, b_length: usize) -> bool;
        fn bench_push(s: *mut u8, length: usize, n: usize, m: usize, time: u64, generation: u64);
        fn bench_remove_first(s: *mut u8, length: usize, n: usize, m: usize);
        fn bench_truncate(s: *mut u8, length: usize, n: usize, p: usize, from: u64) -> u64;
        fn bench_gate(area: *const u8, length: usize) -> u64;
    }

    /// Are all bytes zero?
    pub fn all_zero(s: &[u8]) -> bool {
        unsafe { bench_all_zero(s.as_ptr(), s.len()) }
    }

    /// Are the two slices equal?
    pub fn equal(a: &[u8], b: &[u8]) -> bool {
        unsafe { bench_equal(a.as_ptr(), a.len(), b.as_ptr(), b.len()) }
    }

    /// Words of an event whose message has up to `m` bytes.
    pub fn event_words(m: usize) -> usize {
        7 + m.div_ceil(8)
    }

    /// Pushes an election timer among `n` events.
    pub fn push(s: &mut [u8], n: usize, m: usize, time: u64, generation: u64) {
        assert!(m <= 4_096 && 8 * (n + 1) * event_words(m) <= s.len());
        unsafe { bench_push(s.as_mut_ptr(), s.len(), n, m, time, generation) }
    }

    /// Takes out the earliest of `n` events.
    pub fn remove_first(s: &mut [u8], n: usize, m: usize) {
        assert!(m <= 4_096 && 0 < n && 8 * n * event_words(m) <= s.len());
        unsafe { bench_remove_first(s.as_mut_ptr(), s.len(), n, m) }
    }

    /// Words of an entry whose command has up to `p` bytes.
    pub fn entry_words(p: usize) -> usize {
        2 + p.div_ceil(8)
    }

    /// Removes the entries of a log of `n` places at `from` or later, and gives how many.
    pub fn truncate(s: &mut [u8], n: usize, p: usize, from: u64) -> u64 {
        assert!(p <= 256 && 8 * n * entry_words(p) <= s.len());
        unsafe { bench_truncate(s.as_mut_ptr(), s.len(), n, p, from) }
    }

    /// Questions 4 and 5 of an area: 4, 5, or 0.
    pub fn gate(area: &[u8]) -> u64 {
        unsafe { bench_gate(area.as_ptr(), area.len()) }
    }
}

/// Bytes that no cache holds.
const LARGE: usize = 512 << 20;

fn main() {
    println!("| measurement | proved code | plain Rust |");
    println!("|---|---|---|");
    zero_test();
    comparison();
    for m in [0, 256, 4_096] {
        let (pairs, time) = fastest(|| queue(m));
        println!(
            "| queue (Q-10): {QUEUED} queued, messages of up to {m} bytes, ns a push and a take | {:.1} | |",
            time.as_nanos() as f64 / pairs as f64
        );
    }
    for p in [12, 128, 256] {
        let (truncations, time) = fastest(|| truncations(p));
        println!(
            "| truncation (Q-4): {ENTRIES} entries of up to {p} bytes, µs a truncation | {:.1} | |",
            time.as_nanos() as f64 / 1_000.0 / truncations as f64
        );
    }
    gates();
}

/// GB/s over so many bytes.
fn rate((bytes, time): (u64, Duration)) -> String {
    format!("{:.1}", bytes as f64 / time.as_nanos() as f64)
}

/// The time that a test of so many bytes takes, which must hold.
fn timed(bytes: usize, test: impl FnOnce() -> bool) -> (u64, Duration) {
    let begun = Instant::now();
    assert!(black_box(test()));
    (bytes as u64, begun.elapsed())
}

/// The zero test, beside a loop that leaves at the first byte that is not zero.
fn zero_test() {
    let s = zeros(LARGE);
    let ours = fastest(|| timed(LARGE, || exported::all_zero(black_box(&s))));
    let plain = fastest(|| timed(LARGE, || black_box(&s).iter().all(|byte| *byte == 0)));
    println!(
        "| zero test of 512 MB, GB/s | {} | {} |",
        rate(ours),
        rate(plain)
    );
}

/// The comparison of two slices, beside a loop that leaves at the first difference, and beside `==`.
fn comparison() {
    let (a, b) = (zeros(LARGE), zeros(LARGE));
    let both = 2 * LARGE;
    let ours = fastest(|| timed(both, || exported::equal(black_box(&a), black_box(&b))));
    let plain = fastest(|| {
        timed(both, || {
            black_box(&a).iter().zip(black_box(&b)).all(|(x, y)| x == y)
        })
    });
    let slices = fastest(|| timed(both, || black_box(&a) == black_box(&b)));
    println!(
        "| comparison of 512 MB with 512 MB, GB/s read | {} | {}, `==` {} |",
        rate(ours),
        rate(plain),
        rate(slices)
    );
}

/// Pushes and takes of timer events, at the times at which the reference's measurement makes them on average.
fn queue(m: usize) -> (u64, Duration) {
    let pairs = 2_000_000 / exported::event_words(m) as u64;
    let queued = QUEUED as usize;
    let mut s = vec![0; 8 * queued * exported::event_words(m)];
    let mut rng = Rng::new(1);
    let mut after = |now: u64| now + 150_000_000 + rng.below(150_000_000);
    for generation in 0..QUEUED {
        exported::push(&mut s, generation as usize, m, after(0), generation);
    }
    let begun = Instant::now();
    for generation in 0..pairs {
        exported::remove_first(&mut s, queued, m);
        let time = after(225_000_000 / QUEUED * generation);
        exported::push(&mut s, queued - 1, m, time, generation);
    }
    (pairs, begun.elapsed())
}

/// Truncations of a full log of noops; filling it again is not counted.
fn truncations(p: usize) -> (u64, Duration) {
    const TIMES: u64 = 200;
    let words = exported::entry_words(p);
    let places = ENTRIES as usize;
    let mut s = vec![0; 8 * places * words];
    let mut time = Duration::ZERO;
    for _ in 0..TIMES {
        for place in 0..places {
            s[8 * place * words] = 1;
        }
        let begun = Instant::now();
        let removed = exported::truncate(&mut s, places, p, 1);
        time += begun.elapsed();
        assert_eq!(removed, ENTRIES);
    }
    (TIMES, time)
}

/// The counts of an area of 404 KB.
const SMALL: Counts = Counts {
    servers: 3,
    clients: 3,
    indexes: 256,
    payload: 64,
    message: 512,
    events: 256,
    writes: 32,
    history: 256,
};

/// Those of an area that no cache holds.
const VAST: Counts = Counts {
    message: 4_096,
    events: 65_536,
    ..SMALL
};

/// The gate over areas, beside the zero test of as many bytes.
fn gates() {
    println!();
    println!("| gate: area, tables | µs | GB/s | zero test, µs | times the zero test |");
    println!("|---|---|---|---|---|");
    for (counts, halves, name) in [
        (SMALL, 0, "empty"),
        (SMALL, 1, "half full"),
        (SMALL, 2, "full"),
        (VAST, 0, "empty"),
    ] {
        let area = area(&counts, halves);
        let bytes = area.len();
        let zeros = zeros(bytes);
        let times = if bytes < 1 << 20 { 400 } else { 2 };
        let gate = micros(times, || exported::gate(black_box(&area)) == 0);
        let zero = micros(times, || exported::all_zero(black_box(&zeros)));
        println!(
            "| {} KB, {name} | {gate:.1} | {:.1} | {zero:.1} | {:.2} |",
            bytes / 1_000,
            bytes as f64 / 1_000.0 / gate,
            gate / zero
        );
    }
}

/// The µs that a test takes, which must hold: the least of five rounds of so many.
fn micros(times: u32, test: impl Fn() -> bool) -> f64 {
    let (_, time) = fastest(|| {
        let begun = Instant::now();
        for _ in 0..times {
            assert!(black_box(test()));
        }
        (0, begun.elapsed())
    });
    time.as_nanos() as f64 / 1_000.0 / f64::from(times)
}
