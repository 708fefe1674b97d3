//! Draws clocks and rates: near the bounds, near exact hits and ties, whole numbers of hertz, and any pattern at all.

use crate::plan_rows::{MHZ_2, MHZ_20, NO_CLOCKS, NO_RATES, RATES};
use crate::plans::Ask;
use crate::random::Random;

/// A pattern up to four steps away.
fn near(random: &mut Random, pattern: u64) -> u64 {
    pattern.wrapping_add(random.below(9) as u64).wrapping_sub(4)
}

/// A clock that the divider k takes to the wanted rate exactly.
fn hit(random: &mut Random, rate: u32) -> f64 {
    16.0 * f64::from(rate) * (random.below(130) + 1) as f64
}

/// A clock at which k and k + 1 are as far from the wanted rate, as nearly as a float is: 16 rate 2 (k + 1) (k + 2) / (2 k + 3).
fn tie(random: &mut Random, rate: u32) -> f64 {
    let k = random.below(130) as f64;
    16.0 * f64::from(rate) * 2.0 * (k + 1.0) * (k + 2.0) / (2.0 * k + 3.0)
}

fn frequency(random: &mut Random, rate: u32) -> u64 {
    match random.below(12) {
        0 | 1 => MHZ_2 + random.next() % (MHZ_20 - MHZ_2 + 1),
        2 | 3 => (2e6 + 18e6 * (random.next() as f64 / u64::MAX as f64)).to_bits(),
        4 => ((2_000_000 + random.below(18_000_001)) as f64).to_bits(),
        5 => {
            let bound = random.of(&[MHZ_2, MHZ_20]);
            near(random, bound)
        }
        6 => {
            let clock = hit(random, rate).to_bits();
            near(random, clock)
        }
        7 => hit(random, rate).to_bits(),
        8 | 9 => {
            let clock = tie(random, rate).to_bits();
            near(random, clock)
        }
        10 => random.of(&NO_CLOCKS),
        _ => random.next(),
    }
}

pub fn ask(random: &mut Random) -> Ask {
    let rate = match random.below(16) {
        0 => random.of(&NO_RATES),
        1 => random.next() as u32,
        _ => random.of(&RATES),
    };
    Ask {
        clock: random.of(&[2, 2, 2, 2, 2, 2, 2, 2, 2, 0, 1]),
        frequency: frequency(random, rate),
        rate,
    }
}
