//! Item 7: the planner against exact arithmetic. The plans here are made of fractions of whole
//! numbers, rounded step by step to the nearest pattern, of two equally near ones to the even one.
//! No float operation takes part.

use crate::support::{made_plan, Numbers, RATES};
use reference::plan::Clock;

/// Patterns of 2,000,000 and 20,000,000.
const LOWEST: u64 = 0x413E_8480_0000_0000;
const HIGHEST: u64 = 0x4173_12D0_0000_0000;

/// The bit of a significand that its pattern does not show.
const HIDDEN_BIT: u64 = 1 << 52;

/// A number that is not negative.
#[derive(Clone, Copy)]
struct Fraction {
    numerator: u128,
    denominator: u128,
}

impl Fraction {
    fn whole(number: u32) -> Fraction {
        Fraction::of(u128::from(number), 1)
    }

    fn of(numerator: u128, denominator: u128) -> Fraction {
        Fraction {
            numerator,
            denominator,
        }
    }

    /// What a pattern stands for: a positive normal number under 2^53.
    fn from_pattern(pattern: u64) -> Fraction {
        let significand = pattern % HIDDEN_BIT + HIDDEN_BIT;
        let last_place = 1075 - (pattern >> 52);
        Fraction::of(u128::from(significand), 1 << last_place)
    }

    fn divided_by(self, divisor: u32) -> Fraction {
        Fraction::of(self.numerator, self.denominator * u128::from(divisor))
    }

    /// The greater of the two less the lesser.
    fn distance(self, other: Fraction) -> Fraction {
        let one = self.numerator * other.denominator;
        let two = other.numerator * self.denominator;
        Fraction::of(one.abs_diff(two), self.denominator * other.denominator)
    }

    fn is_over(self, other: Fraction) -> bool {
        self.numerator * other.denominator > other.numerator * self.denominator
    }

    /// Whether it is 2^exponent at least.
    fn reaches(self, exponent: i32) -> bool {
        let scale = exponent.unsigned_abs();
        if exponent >= 0 {
            self.numerator >= self.denominator << scale
        } else {
            self.numerator << scale >= self.denominator
        }
    }

    /// The pattern of the nearest number; of two equally near, the even one.
    fn rounded(self) -> u64 {
        if self.numerator == 0 {
            return 0;
        }
        let lengths = [self.numerator, self.denominator].map(|part| part.ilog2() as i32);
        let mut exponent = lengths[0] - lengths[1];
        if !self.reaches(exponent) {
            exponent -= 1;
        }
        // Scaled so that the whole part is the significand, from 2^52 up to 2^53.
        let (mut numerator, mut denominator) = (self.numerator, self.denominator);
        if exponent <= 52 {
            numerator <<= 52 - exponent;
        } else {
            denominator <<= exponent - 52;
        }
        let (significand, rest) = (numerator / denominator, numerator % denominator);
        let even = significand % 2 == 0;
        let up = 2 * rest > denominator || 2 * rest == denominator && !even;
        // The significand's highest bit counts as 1 in the exponent's field, and rounding up to
        // 2^53 as 2 with a fraction of 0.
        (((exponent + 1022) as u64) << 52) + significand as u64 + u64::from(up)
    }
}

/// The reached rate and its distance for one divider, each step rounded once.
fn tried(clock: u64, wanted: u32, divider: u8) -> (u64, u64) {
    let sixteenth = Fraction::from_pattern(clock).divided_by(16).rounded();
    let reached = Fraction::from_pattern(sixteenth)
        .divided_by(u32::from(divider) + 1)
        .rounded();
    let distance = Fraction::from_pattern(reached)
        .distance(Fraction::whole(wanted))
        .rounded();
    (reached, distance)
}

/// The first divider of least distance, its rate and the distance. Patterns of numbers that are not
/// negative are ordered as the numbers are.
fn exact_plan(clock: u64, wanted: u32) -> (u8, u64, u64) {
    let (mut divider, (mut reached, mut distance)) = (0, tried(clock, wanted, 0));
    for next in 1..=255 {
        let (next_reached, next_distance) = tried(clock, wanted, next);
        if next_distance < distance {
            (divider, reached, distance) = (next, next_reached, next_distance);
        }
    }
    (divider, reached, distance)
}

#[track_caller]
fn assert_exact(clock: u64, wanted: u32) {
    let given = made_plan(Clock::External(f64::from_bits(clock)), wanted);
    assert_eq!(
        given,
        exact_plan(clock, wanted),
        "{clock:#018X} for {wanted}"
    );
}

/// The clock at which the unrounded rates of a divider and the next one are equally far from the
/// wanted one: c/16n - w = w - c/16(n+1).
fn tie(wanted: u32, divider: u8) -> Fraction {
    let n = u128::from(divider) + 1;
    Fraction::of(32 * u128::from(wanted) * n * (n + 1), 2 * n + 1)
}

/// The patterns up to `far` away from that of the fraction, if it is a clock within the bounds.
fn clocks_around(centre: Fraction, far: u64) -> impl Iterator<Item = u64> {
    let centre = centre.rounded();
    let within = (LOWEST..=HIGHEST).contains(&centre);
    let around = within.then_some(centre - far..=centre + far);
    around
        .into_iter()
        .flatten()
        .filter(|clock| (LOWEST..=HIGHEST).contains(clock))
}

#[test]
fn the_rounding_of_these_tests() {
    let big = 1 << 53;
    for (numerator, denominator, pattern) in [
        (0, 7, 0x0000_0000_0000_0000),
        (1, 1, 0x3FF0_0000_0000_0000),
        (3, 2, 0x3FF8_0000_0000_0000),
        (1, 3, 0x3FD5_5555_5555_5555),
        (2, 3, 0x3FE5_5555_5555_5555),
        (1, 10, 0x3FB9_9999_9999_999A),
        (2_000_000, 1, LOWEST),
        (20_000_000, 1, HIGHEST),
        // Halfway between two patterns, to the even one: down, up, and up to the next power of 2.
        (big + 1, 1, 0x4340_0000_0000_0000),
        (big + 3, 1, 0x4340_0000_0000_0002),
        (2 * big - 1, 1, 0x4350_0000_0000_0000),
        // Next to halfway.
        (4 * big + 3, 4, 0x4340_0000_0000_0000),
        (4 * big + 5, 4, 0x4340_0000_0000_0001),
        (4 * big + 11, 4, 0x4340_0000_0000_0001),
        (4 * big + 13, 4, 0x4340_0000_0000_0002),
    ] {
        assert_eq!(Fraction::of(numerator, denominator).rounded(), pattern);
    }
    for pattern in [LOWEST, LOWEST + 1, 0x40C2_C7B1_3B13_B13B, HIGHEST] {
        assert_eq!(Fraction::from_pattern(pattern).rounded(), pattern);
    }
}

#[test]
fn drawn_clocks() {
    let mut numbers = Numbers(0x9E37_79B9_7F4A_7C15);
    for _ in 0..2000 {
        let any = LOWEST + numbers.next(HIGHEST - LOWEST + 1);
        let hertz = 2_000_000 + numbers.next(18_000_001) as u32;
        let whole = Fraction::whole(hertz).rounded();
        for wanted in RATES {
            assert_exact(any, wanted);
            assert_exact(whole, wanted);
        }
    }
}

#[test]
fn clocks_at_and_next_to_the_bounds() {
    for wanted in RATES {
        for step in 0..20 {
            assert_exact(LOWEST + step, wanted);
            assert_exact(HIGHEST - step, wanted);
        }
    }
}

#[test]
fn clocks_at_and_next_to_exact_hits() {
    for wanted in RATES {
        for count in 1..=256 {
            for clock in clocks_around(Fraction::whole(16 * wanted * count), 2) {
                assert_exact(clock, wanted);
            }
        }
    }
}

#[test]
fn clocks_at_and_next_to_ties() {
    let (mut exact, mut only_rounded) = (0, 0);
    for wanted in RATES {
        for divider in 0..255 {
            let tie = tie(wanted, divider);
            for clock in clocks_around(tie, 3) {
                assert_exact(clock, wanted);
                let (_, distance) = tried(clock, wanted, divider);
                let (_, next_distance) = tried(clock, wanted, divider + 1);
                if distance == next_distance {
                    let plan = made_plan(Clock::External(f64::from_bits(clock)), wanted);
                    assert_eq!(plan.0, divider);
                    let clock = Fraction::from_pattern(clock);
                    let is_exact = clock.distance(tie).numerator == 0;
                    exact += u32::from(is_exact);
                    only_rounded += u32::from(clock.is_over(tie));
                }
            }
        }
    }
    // The whole clocks, and clocks at which only rounding makes the smaller divider as near.
    assert_eq!((exact, only_rounded), (14, 47));
}

/// Three clocks at which two neighbouring dividers are equally far only because their rates are
/// rounded: unrounded, the greater divider is nearer. Clock, the smaller divider, its rate, the
/// other's rate and the distance of both; the wanted rate is 9600.
const ROUNDED_TIES: [(u64, u8, u64, u64, u64); 3] = [
    (
        0x4149_2E82_FA0B_E830,
        20,
        0x40C3_2FA0_BE82_FA0C,
        0x40C2_505F_417D_05F4,
        0x406B_E82F_A0BE_8300,
    ),
    (
        0x4152_73CF_3CF3_CF3D,
        30,
        0x40C3_0C30_C30C_30C3,
        0x40C2_73CF_3CF3_CF3D,
        0x4063_0C30_C30C_30C0,
    ),
    (
        0x4166_1E40_6C80_D902,
        74,
        0x40C2_DFC9_BF93_7F27,
        0x40C2_A036_406C_80D9,
        0x404F_C9BF_937F_2700,
    ),
];

#[test]
fn distances_are_compared_as_rounded() {
    for (clock, divider, reached, other, distance) in ROUNDED_TIES {
        // Typed right: unrounded the greater divider is nearer, rounded both are so far.
        assert!(Fraction::from_pattern(clock).is_over(tie(9600, divider)));
        assert_eq!(tried(clock, 9600, divider), (reached, distance));
        assert_eq!(tried(clock, 9600, divider + 1), (other, distance));

        let plan = made_plan(Clock::External(f64::from_bits(clock)), 9600);
        assert_eq!(plan, (divider, reached, distance));
    }
}
