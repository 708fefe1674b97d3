//! Plans and refusals typed from outside this project's code, and the table of a source document.

use crate::plans::{Ask, Plan};

/// Patterns of frequencies; the first and the fourth are the bounds.
pub const MHZ_2: u64 = 0x413E_8480_0000_0000;
const MHZ_8: u64 = 0x415E_8480_0000_0000;
const MHZ_16: u64 = 0x416E_8480_0000_0000;
pub const MHZ_20: u64 = 0x4173_12D0_0000_0000;
const HZ_12345678_9: u64 = 0x4167_8C29_DCCC_CCCD;

pub const RATES: [u32; 5] = [9600, 19200, 38400, 57600, 115200];

/// Which clock a block of rows is for.
const FIXED_8: (u8, u64) = (0, 0);
const FIXED_7: (u8, u64) = (1, 0);

fn external(pattern: u64) -> (u8, u64) {
    (2, pattern)
}

/// The plans of a clock at the five rates: divider, reached rate, distance. Computed in IEEE double arithmetic and again by exact
/// fractions rounded once at each step, both apart from the code here.
type Block = ((u8, u64), [(u8, u64, u64); 5]);

fn blocks() -> [Block; 6] {
    [
        (
            FIXED_8,
            [
                (51, 0x40C2C7B13B13B13B, 0x402EC4EC4EC4EC00),
                (25, 0x40D2C7B13B13B13B, 0x403EC4EC4EC4EC00),
                (12, 0x40E2C7B13B13B13B, 0x404EC4EC4EC4EC00),
                (8, 0x40EB2071C71C71C7, 0x409FF1C71C71C720),
                (3, 0x40FE848000000000, 0x40C3240000000000),
            ],
        ),
        (
            FIXED_7,
            [
                (47, 0x40C2C00000000000, 0),
                (23, 0x40D2C00000000000, 0),
                (11, 0x40E2C00000000000, 0),
                (7, 0x40EC200000000000, 0),
                (3, 0x40FC200000000000, 0),
            ],
        ),
        (
            external(MHZ_2),
            [
                (12, 0x40C2C7B13B13B13B, 0x402EC4EC4EC4EC00),
                (6, 0x40D1704924924925, 0x4094FB6DB6DB6DB0),
                (2, 0x40E4585555555555, 0x40A9855555555550),
                (1, 0x40EE848000000000, 0x40B3240000000000),
                (0, 0x40FE848000000000, 0x40C3240000000000),
            ],
        ),
        (
            external(MHZ_20),
            [
                (129, 0x40C2C7B13B13B13B, 0x402EC4EC4EC4EC00),
                (64, 0x40D2C7B13B13B13B, 0x403EC4EC4EC4EC00),
                (32, 0x40E27ED9364D9365, 0x408049B26C9B26C0),
                (21, 0x40EBBE45D1745D17, 0x40886E8BA2E8BA40),
                (10, 0x40FBBE45D1745D17, 0x40986E8BA2E8BA40),
            ],
        ),
        (
            external(MHZ_16),
            [
                (103, 0x40C2C7B13B13B13B, 0x402EC4EC4EC4EC00),
                (51, 0x40D2C7B13B13B13B, 0x403EC4EC4EC4EC00),
                (25, 0x40E2C7B13B13B13B, 0x404EC4EC4EC4EC00),
                (16, 0x40ECB8F0F0F0F0F1, 0x40931E1E1E1E1E20),
                (8, 0x40FB2071C71C71C7, 0x40AFF1C71C71C720),
            ],
        ),
        (
            external(HZ_12345678_9),
            [
                (79, 0x40C2D687E3D70A3E, 0x404687E3D70A3E00),
                (39, 0x40D2D687E3D70A3E, 0x405687E3D70A3E00),
                (19, 0x40E2D687E3D70A3E, 0x406687E3D70A3E00),
                (12, 0x40ECFB4737237237, 0x409B68E6E46E46E0),
                (6, 0x40FAE9546A0EA0EA, 0x40B36AB95F15F160),
            ],
        ),
    ]
}

/// Clocks in hertz at which the divider and the next one are exactly as far from the wanted rate: the smaller is the plan's. Clock, rate,
/// divider, reached rate, distance, all whole numbers of hertz.
const TIES: [(u32, u32, u8, u32, u32); 14] = [
    (2457600, 115200, 0, 153600, 38400),
    (2211840, 57600, 1, 69120, 11520),
    (4423680, 115200, 1, 138240, 23040),
    (4096000, 57600, 3, 64000, 6400),
    (8192000, 115200, 3, 128000, 12800),
    (2293760, 19200, 6, 20480, 1280),
    (4587520, 38400, 6, 40960, 2560),
    (6881280, 57600, 6, 61440, 3840),
    (13762560, 115200, 6, 122880, 7680),
    (3833856, 19200, 11, 19968, 768),
    (7667712, 38400, 11, 39936, 1536),
    (11501568, 57600, 11, 59904, 2304),
    (5758976, 9600, 36, 9728, 128),
    (11517952, 19200, 36, 19456, 256),
];

/// Clocks that are refused with 9, whatever the rate.
pub const NO_CLOCKS: [u64; 16] = [
    0x413E_847F_FFFF_FFFF, // below 2,000,000
    0x4173_12D0_0000_0001, // above 20,000,000
    0x7FF8_0000_0000_0000, // NaNs: quiet, signalling, negative, all ones
    0x7FF0_0000_0000_0001,
    0xFFF8_0000_0000_0000,
    0xFFFF_FFFF_FFFF_FFFF,
    0x7FF0_0000_0000_0000, // infinities
    0xFFF0_0000_0000_0000,
    0x0000_0000_0000_0000, // zeros
    0x8000_0000_0000_0000,
    0x0000_0000_0000_0001, // subnormals
    0x000F_FFFF_FFFF_FFFF,
    0xC15E_8480_0000_0000, // -8,000,000
    0x4020_0000_0000_0000, // 8
    0x0010_0000_0000_0000, // the smallest normal number, the largest
    0x7FEF_FFFF_FFFF_FFFF,
];

/// Rates that are refused with 10 where the clock is good.
pub const NO_RATES: [u32; 13] = [
    0,
    1,
    4800,
    9599,
    9601,
    19199,
    19201,
    38401,
    57599,
    115199,
    115201,
    230400,
    0xFFFF_FFFF,
];

/// Every row: what is asked, and what is answered.
pub fn all() -> Vec<(Ask, Plan)> {
    let mut rows = Vec::new();
    let made = |divider, reached, distance| Plan {
        refusal: 0,
        divider,
        reached,
        distance,
    };
    let ask = |(clock, frequency), rate| Ask {
        clock,
        frequency,
        rate,
    };
    for (clock, plans) in blocks() {
        for (rate, (divider, reached, distance)) in RATES.into_iter().zip(plans) {
            rows.push((ask(clock, rate), made(divider, reached, distance)));
        }
    }
    for (hertz, rate, divider, reached, distance) in TIES {
        let plan = made(
            divider,
            f64::from(reached).to_bits(),
            f64::from(distance).to_bits(),
        );
        rows.push((Ask::external(f64::from(hertz), rate), plan));
    }
    for frequency in NO_CLOCKS {
        for rate in [9600, 115200, 9601] {
            rows.push((ask(external(frequency), rate), Plan::refused(9)));
        }
    }
    for rate in NO_RATES {
        for clock in [
            FIXED_8,
            FIXED_7,
            external(MHZ_8),
            external(MHZ_2),
            external(MHZ_20),
        ] {
            rows.push((ask(clock, rate), Plan::refused(10)));
        }
    }
    rows
}

/// Source document 000, Table 3.3.1: the clocks, and at each rate whether they can communicate ('o') or not ('x'), in the source's order.
const TABLE_CLOCKS: [f64; 13] = [
    20e6, 16e6, 12e6, 10e6, 8e6, 7372800.0, 6e6, 5e6, 4.5e6, 4194304.0, 4e6, 3.58e6, 2e6,
];

const TABLE: [(u32, &[u8; 13]); 5] = [
    (9600, b"ooooooooooooo"),
    (19200, b"oooooooooooox"),
    (38400, b"ooooooooooxox"),
    (57600, b"ooooooxxoxxox"),
    (115200, b"ooxxxoxxxxxox"),
];

/// The table's entries: what is asked, and whether it works.
pub fn table() -> Vec<(Ask, bool)> {
    let mut entries = Vec::new();
    for (rate, works) in TABLE {
        for (hertz, mark) in TABLE_CLOCKS.into_iter().zip(works) {
            entries.push((Ask::external(hertz, rate), *mark == b'o'));
        }
    }
    entries
}
