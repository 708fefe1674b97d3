//! Item 7: plans and refusals.
//!
//! Expected floats are typed as numbers where they are whole, and else as patterns found by whole
//! numbers alone: p/q from 2^e up to 2^(e+1) has the pattern (e + 1022) * 2^52 plus the whole
//! number nearest to p * 2^(52-e) / q. A distance is the exact difference of the typed rate and the
//! wanted one: it has at most 53 bits wherever the reached rate is at least half the wanted one.

use crate::support::{made_plan, plan_bits, RATES};
use reference::plan::Clock;

/// The answer of a refused plan: divider 0 and both floats +0.
const fn refused(refusal: u8) -> (u8, u8, u64, u64) {
    (refusal, 0, 0, 0)
}

fn external(pattern: u64) -> Clock {
    Clock::External(f64::from_bits(pattern))
}

/// Patterns of external clocks that are refused.
const BAD_CLOCKS: [u64; 43] = [
    // Next to the two bounds, and a whole hertz or more away: 1,999,999, 20,000,001, 1, 1,000,000,
    // 2^21 - 2^18, 2^25.
    0x413E_847F_FFFF_FFFF,
    0x4173_12D0_0000_0001,
    0x413E_847F_0000_0000,
    0x4173_12D0_1000_0000,
    0x3FF0_0000_0000_0000,
    0x412E_8480_0000_0000,
    0x413C_0000_0000_0000,
    0x4180_0000_0000_0000,
    // Quiet NaNs of both signs: without and with payloads, all bits set, the fraction of 8 MHz.
    0x7FF8_0000_0000_0000,
    0xFFF8_0000_0000_0000,
    0x7FF8_0000_0000_0001,
    0xFFF8_0000_0000_0001,
    0x7FFF_FFFF_FFFF_FFFF,
    0xFFFF_FFFF_FFFF_FFFF,
    0x7FFE_8480_0000_0000,
    0xFFFE_8480_0000_0000,
    // Signalling NaNs of both signs, the last two with the fraction of 20 MHz.
    0x7FF0_0000_0000_0001,
    0xFFF0_0000_0000_0001,
    0x7FF7_FFFF_FFFF_FFFF,
    0xFFF7_FFFF_FFFF_FFFF,
    0x7FF3_12D0_0000_0000,
    0xFFF3_12D0_0000_0000,
    // Infinities, and the largest finite numbers.
    0x7FF0_0000_0000_0000,
    0xFFF0_0000_0000_0000,
    0x7FEF_FFFF_FFFF_FFFF,
    0xFFEF_FFFF_FFFF_FFFF,
    // Zeros.
    0x0000_0000_0000_0000,
    0x8000_0000_0000_0000,
    // Subnormals: the smallest, the largest, and those whose patterns are the whole numbers
    // 2,000,000, 8,000,000 and 20,000,000. Then the smallest normal numbers.
    0x0000_0000_0000_0001,
    0x8000_0000_0000_0001,
    0x000F_FFFF_FFFF_FFFF,
    0x800F_FFFF_FFFF_FFFF,
    2_000_000,
    8_000_000,
    20_000_000,
    0x0010_0000_0000_0000,
    0x8010_0000_0000_0000,
    // The negatives of both bounds, of both fixed clocks and of numbers between and beyond.
    0xC13E_8480_0000_0000,
    0xC173_12D0_0000_0000,
    0xC15E_8480_0000_0000,
    0xC15C_2000_0000_0000,
    0xC142_C000_0000_0000,
    0xC180_0000_0000_0000,
];

/// Rates that are not listed: next to each listed one, 0, the largest, other usual rates, sums and
/// multiples of listed ones, and numbers that share low or high bits with them.
const BAD_RATES: [u32; 36] = [
    9599,
    9601,
    19_199,
    19_201,
    38_399,
    38_401,
    57_599,
    57_601,
    115_199,
    115_201,
    0,
    1,
    u32::MAX,
    u32::MAX - 1,
    1 << 31,
    300,
    1200,
    2400,
    4800,
    14_400,
    28_800,
    76_800,
    153_600,
    230_400,
    460_800,
    115_200 + 9600,
    115_200 - 65_536,
    9600 + 65_536,
    9600 << 16,
    9600 | 1 << 31,
    115_200 | 1 << 24,
    u32::MAX - 9599,
    u32::MAX - 115_199,
    0x8025_0000,
    0x00C2_0100,
    2_000_000,
];

/// A few clocks that are not refused.
fn good_clocks() -> [Clock; 6] {
    [
        Clock::Fixed8MHz,
        Clock::Fixed7_3728MHz,
        Clock::External(2_000_000.0),
        Clock::External(20_000_000.0),
        Clock::External(8_000_000.0),
        Clock::External(3_300_613.953_488_372_3),
    ]
}

/// Asserts the five plans of a clock, in the order of the rates.
#[track_caller]
fn assert_plans(clock: Clock, expected: [(u8, u64, u64); 5]) {
    assert_eq!(RATES.map(|wanted| made_plan(clock, wanted)), expected);
}

/// A sixteenth is 500,000: divided by 52, 26 and 13 (125,000/13 and its multiples), by 9 and by 4.
const PLANS_OF_8_MHZ: [(u8, u64, u64); 5] = [
    (51, 0x40C2_C7B1_3B13_B13B, 0x402E_C4EC_4EC4_EC00),
    (25, 0x40D2_C7B1_3B13_B13B, 0x403E_C4EC_4EC4_EC00),
    (12, 0x40E2_C7B1_3B13_B13B, 0x404E_C4EC_4EC4_EC00),
    (8, 0x40EB_2071_C71C_71C7, 0x409F_F1C7_1C71_C720),
    (3, 0x40FE_8480_0000_0000, 0x40C3_2400_0000_0000),
];

/// A sixteenth is 460,800, a multiple of every rate: 48, 24, 12, 8 and 4 times.
const PLANS_OF_7_3728_MHZ: [(u8, u64, u64); 5] = [
    (47, 0x40C2_C000_0000_0000, 0),
    (23, 0x40D2_C000_0000_0000, 0),
    (11, 0x40E2_C000_0000_0000, 0),
    (7, 0x40EC_2000_0000_0000, 0),
    (3, 0x40FC_2000_0000_0000, 0),
];

#[test]
fn the_clock_fixed_at_8_mhz() {
    assert_plans(Clock::Fixed8MHz, PLANS_OF_8_MHZ);
    // The last one again, as numbers: 125,000 is 9,800 too fast, 100,000 would be 15,200 too slow.
    let expected = (3, 125_000f64.to_bits(), 9_800f64.to_bits());
    assert_eq!(made_plan(Clock::Fixed8MHz, 115_200), expected);
}

#[test]
fn the_clock_fixed_at_7_3728_mhz() {
    assert_plans(Clock::Fixed7_3728MHz, PLANS_OF_7_3728_MHZ);
}

#[test]
fn an_external_clock_of_a_fixed_frequency_has_the_fixed_clocks_plans() {
    assert_plans(external(0x415E_8480_0000_0000), PLANS_OF_8_MHZ);
    assert_plans(Clock::External(8_000_000.0), PLANS_OF_8_MHZ);
    assert_plans(external(0x415C_2000_0000_0000), PLANS_OF_7_3728_MHZ);
    assert_plans(Clock::External(7_372_800.0), PLANS_OF_7_3728_MHZ);
}

#[test]
fn both_bounds_are_taken() {
    // A sixteenth is 125,000: divided by 13, 7, 3, 2 and 1.
    let at_2_mhz = [
        (12, 0x40C2_C7B1_3B13_B13B, 0x402E_C4EC_4EC4_EC00),
        (6, 0x40D1_7049_2492_4925, 0x4094_FB6D_B6DB_6DB0),
        (2, 0x40E4_5855_5555_5555, 0x40A9_8555_5555_5550),
        (1, 62_500f64.to_bits(), 4_900f64.to_bits()),
        (0, 125_000f64.to_bits(), 9_800f64.to_bits()),
    ];
    assert_plans(external(0x413E_8480_0000_0000), at_2_mhz);
    // A sixteenth is 1,250,000: divided by 130, 65, 33, 22 and 11.
    let at_20_mhz = [
        (129, 0x40C2_C7B1_3B13_B13B, 0x402E_C4EC_4EC4_EC00),
        (64, 0x40D2_C7B1_3B13_B13B, 0x403E_C4EC_4EC4_EC00),
        (32, 0x40E2_7ED9_364D_9365, 0x4080_49B2_6C9B_26C0),
        (21, 0x40EB_BE45_D174_5D17, 0x4088_6E8B_A2E8_BA40),
        (10, 0x40FB_BE45_D174_5D17, 0x4098_6E8B_A2E8_BA40),
    ];
    assert_plans(external(0x4173_12D0_0000_0000), at_20_mhz);
}

#[test]
fn the_patterns_next_to_the_bounds() {
    for wanted in RATES {
        assert_eq!(
            plan_bits(external(0x413E_847F_FFFF_FFFF), wanted),
            refused(9)
        );
        assert_eq!(
            plan_bits(external(0x4173_12D0_0000_0001), wanted),
            refused(9)
        );
    }
    // 2^-32 Hz over the lower bound: divided by 16 and by 1 that is exact, 2^-36 more.
    let above = (0, 0x40FE_8480_0000_0001, 0x40C3_2400_0000_0008);
    assert_eq!(made_plan(external(0x413E_8480_0000_0001), 115_200), above);
    // 2^-28 Hz under the upper one: divided by 16 and by 11 that is 16/11 less of the last place.
    // 1,250,000/11 lies 3/11 of it over its pattern, ..5D17, and so this one 13/11 under it.
    let below = (10, 0x40FB_BE45_D174_5D16, 0x4098_6E8B_A2E8_BA80);
    assert_eq!(made_plan(external(0x4173_12CF_FFFF_FFFF), 115_200), below);
}

#[test]
fn clocks_that_are_refused() {
    for pattern in BAD_CLOCKS {
        for wanted in RATES {
            assert_eq!(plan_bits(external(pattern), wanted), refused(9));
        }
    }
}

#[test]
fn rates_that_are_refused() {
    for wanted in BAD_RATES {
        for clock in good_clocks() {
            assert_eq!(plan_bits(clock, wanted), refused(10));
        }
    }
}

#[test]
fn where_both_are_wrong_9_wins() {
    for pattern in BAD_CLOCKS {
        for wanted in BAD_RATES {
            assert_eq!(plan_bits(external(pattern), wanted), refused(9));
        }
    }
}

#[test]
fn exact_hits_have_distance_plus_0() {
    let mut hits = 0;
    for wanted in RATES {
        for count in 1..=256 {
            let hertz = 16 * wanted * count;
            if (2_000_000..=20_000_000).contains(&hertz) {
                let expected = ((count - 1) as u8, f64::from(wanted).to_bits(), 0);
                let clock = Clock::External(f64::from(hertz));
                assert_eq!(made_plan(clock, wanted), expected);
                hits += 1;
            }
        }
    }
    // Multiples of 153,600, 307,200, 614,400, 921,600 and 1,843,200: 14 to 130, 7 to 65, 4 to 32,
    // 3 to 21 and 2 to 10 of them lie between the bounds.
    assert_eq!(hits, 117 + 59 + 29 + 19 + 9);
}

/// All clocks at which two neighbouring dividers are equally far: clock, rate, the smaller divider,
/// its rate and the distance of both.
///
/// The rates of dividers d and d+1 lie equally far from w where the clock is
/// 32 * w * (d+1) * (d+2) / (2d+3). 2d+3 is odd and has no factor of d+1 or d+2, so the clock is a
/// binary fraction exactly where 2d+3 divides w, and then it is whole: 2d+3 is 3, 5, 9, 15, 25, 45,
/// 75 or 225. These are the ones between the bounds.
const TIES: [(u32, u32, u8, u32, u32); 14] = [
    (5_758_976, 9600, 36, 9728, 128),
    (2_293_760, 19_200, 6, 20_480, 1280),
    (3_833_856, 19_200, 11, 19_968, 768),
    (11_517_952, 19_200, 36, 19_456, 256),
    (4_587_520, 38_400, 6, 40_960, 2560),
    (7_667_712, 38_400, 11, 39_936, 1536),
    (2_211_840, 57_600, 1, 69_120, 11_520),
    (4_096_000, 57_600, 3, 64_000, 6400),
    (6_881_280, 57_600, 6, 61_440, 3840),
    (11_501_568, 57_600, 11, 59_904, 2304),
    (2_457_600, 115_200, 0, 153_600, 38_400),
    (4_423_680, 115_200, 1, 138_240, 23_040),
    (8_192_000, 115_200, 3, 128_000, 12_800),
    (13_762_560, 115_200, 6, 122_880, 7680),
];

#[test]
fn of_two_equally_far_the_smaller_divider() {
    for (hertz, wanted, divider, reached, distance) in TIES {
        // Typed right: both rates are whole, and so far from the wanted one.
        let n = u32::from(divider) + 1;
        assert_eq!(reached * 16 * n, hertz);
        assert_eq!((wanted - distance) * 16 * (n + 1), hertz);
        assert_eq!(reached - wanted, distance);

        let pattern = f64::from(hertz).to_bits();
        let [reached, distance] = [reached, distance].map(|rate| f64::from(rate).to_bits());
        let expected = (divider, reached, distance);
        assert_eq!(made_plan(external(pattern), wanted), expected);
        // One pattern lower or higher moves each rate by more than half its last place, so the
        // rounded rates move too: the smaller divider is nearer, or the greater one.
        assert_eq!(made_plan(external(pattern - 1), wanted).0, divider);
        assert_eq!(made_plan(external(pattern + 1), wanted).0, divider + 1);
    }
}

#[test]
fn a_plan_depends_on_nothing_but_its_inputs() {
    let clocks = good_clocks();
    let first = clocks.map(|clock| RATES.map(|wanted| plan_bits(clock, wanted)));
    for (clock, expected) in clocks.into_iter().zip(first).rev() {
        for (wanted, expected) in RATES.into_iter().zip(expected).rev() {
            assert_eq!(
                plan_bits(external(0x7FF0_0000_0000_0001), wanted),
                refused(9)
            );
            assert_eq!(plan_bits(clock, wanted + 1), refused(10));
            assert_eq!(plan_bits(clock, wanted), expected);
        }
    }
}
