//! The generator.

use consensus::Rng;
use numbers::generator as state;

use crate::File;

/// What each draw adds to the state; the reference's constant, read off the first draw.
pub(crate) fn step() -> u64 {
    let mut rng = Rng::new(0);
    rng.next_u64();
    state(&rng)
}

/// Seeds at the ends and in the middle.
pub(crate) const SEEDS: [u64; 8] = [
    0,
    1,
    2,
    1_234_567,
    0x0123_4567_89AB_CDEF,
    1 << 63,
    u64::MAX - 1,
    u64::MAX,
];

/// State, value drawn, next state.
pub(crate) fn draws() -> File {
    let mut rows = Vec::new();
    for seed in SEEDS {
        let mut rng = Rng::new(seed);
        for _ in 0..8 {
            let before = state(&rng);
            let value = rng.next_u64();
            rows.push([before, value, state(&rng)]);
        }
    }
    File::new("draws.bin", rows)
}

/// State, bound, value drawn, next state.
pub(crate) fn below() -> File {
    let bounds = [
        1,
        2,
        3,
        8,
        1_000_000,
        u64::from(u32::MAX),
        1 << 32,
        (1 << 40) + 1,
        1 << 63,
        u64::MAX,
    ];
    let mut rows = Vec::new();
    for seed in SEEDS {
        let mut rng = Rng::new(seed);
        for bound in bounds {
            let before = state(&rng);
            let value = rng.below(bound);
            rows.push([before, bound, value, state(&rng)]);
        }
    }
    File::new("below.bin", rows)
}

#[cfg(test)]
mod tests {
    use super::*;

    #[test]
    fn the_generator_is_the_published_one() {
        let mut rng = Rng::new(1_234_567);
        let drawn: Vec<u64> = (0..5).map(|_| rng.next_u64()).collect();
        assert_eq!(
            drawn,
            [
                6_457_827_717_110_365_317,
                3_203_168_211_198_807_973,
                9_817_491_932_198_370_423,
                4_593_380_528_125_082_431,
                16_408_922_859_458_223_821,
            ]
        );
    }

    #[test]
    fn a_draw_adds_the_constant() {
        assert_eq!(step(), 0x9E37_79B9_7F4A_7C15);
    }
}
