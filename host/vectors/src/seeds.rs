//! Streams.
//!
//! The reference keeps a stream's tag to itself, but the stream's seed tells it: every step from
//! the tag to the seed can be undone.

use consensus::{NodeId, Rng};
use sim::{Stream, stream_seed};

use crate::File;
use crate::rng::{SEEDS, step};

/// Seed, stream in the order of declaration, server, incarnation, tag, the stream's seed.
pub(crate) fn stream_seeds() -> File {
    let plain = [
        Stream::Faults,
        Stream::Network,
        Stream::Workload,
        Stream::Scenario,
        Stream::Startup,
    ];
    let mut rows = Vec::new();
    for (kind, stream) in plain.into_iter().enumerate() {
        for seed in [0, 7, u64::MAX] {
            rows.push(row(seed, kind as u64, (0, 0), stream));
        }
    }
    let ids = [1, 2, 8, 0xFFFF_FFFF, 0x1_0000_0001, u64::MAX];
    let incarnations = [0, 1, 255, 16_777_215, 16_777_216, u32::MAX];
    for (place, id) in ids.into_iter().enumerate() {
        for incarnation in incarnations {
            let seed = SEEDS[place];
            let stream = Stream::Server {
                id: NodeId(id),
                incarnation,
            };
            rows.push(row(seed, 5, (id, incarnation), stream));
        }
    }
    File::new("seeds.bin", rows)
}

fn row(seed: u64, kind: u64, (id, incarnation): (u64, u32), stream: Stream) -> [u64; 6] {
    let given = stream_seed(seed, stream);
    let tag = tag(seed, given);
    [seed, kind, id, incarnation.into(), tag, given]
}

/// The tag that gives this stream seed.
fn tag(seed: u64, stream_seed: u64) -> u64 {
    let base = Rng::new(seed).next_u64();
    let drawn_from = undrawn(stream_seed);
    (drawn_from ^ base).wrapping_mul(inverse(step()))
}

/// The state from which one draw gives `value`.
fn undrawn(value: u64) -> u64 {
    let z = unshifted(value, 31).wrapping_mul(inverse(0x94D0_49BB_1331_11EB));
    let z = unshifted(z, 27).wrapping_mul(inverse(0xBF58_476D_1CE4_E5B9));
    unshifted(z, 30).wrapping_sub(step())
}

/// The number that, combined with itself shifted right, gives `value`.
fn unshifted(value: u64, shift: u32) -> u64 {
    let once = value ^ (value >> shift);
    once ^ (once >> (2 * shift))
}

/// The inverse of an odd number modulo 2^64, by Newton's iteration.
fn inverse(odd: u64) -> u64 {
    (0..6).fold(odd, |x, _| {
        x.wrapping_mul(2u64.wrapping_sub(odd.wrapping_mul(x)))
    })
}

#[cfg(test)]
mod tests {
    use super::*;

    #[test]
    fn a_draw_is_undone() {
        for seed in SEEDS {
            assert_eq!(undrawn(Rng::new(seed).next_u64()), seed);
        }
    }

    #[test]
    fn tags_are_as_document_01_has_them() {
        let id = NodeId(1);
        let of = |incarnation| tag(9, stream_seed(9, Stream::Server { id, incarnation }));
        assert_eq!(of(0), 0x0500_0000_0000_0001);
        assert_eq!(of(16_777_216), of(0));
        assert_eq!(tag(3, stream_seed(3, Stream::Startup)), 6);
    }
}
