//! The planner for line rates, Item 7 of document 02: which divider suits a clock.
//!
//! It stands beside the port and starts no unit. Every step is one binary64 operation, rounded once
//! to the nearest.

/// The refusals' numbers.
pub const CLOCK: u8 = 9;
pub const WANTED_RATE: u8 = 10;

/// The rates that may be wanted.
pub const RATES: [u32; 5] = [9600, 19_200, 38_400, 57_600, 115_200];

const EXTERNAL_MIN: f64 = 2_000_000.0;
const EXTERNAL_MAX: f64 = 20_000_000.0;

#[derive(Clone, Copy, Debug)]
pub enum Clock {
    Fixed8MHz,
    Fixed7_3728MHz,
    /// A clock of this frequency in hertz.
    External(f64),
}

impl Clock {
    /// The frequency in hertz, none if the clock is refused. A NaN lies in no range.
    fn hertz(self) -> Option<f64> {
        match self {
            Clock::Fixed8MHz => Some(8_000_000.0),
            Clock::Fixed7_3728MHz => Some(7_372_800.0),
            Clock::External(hertz) => (EXTERNAL_MIN..=EXTERNAL_MAX)
                .contains(&hertz)
                .then_some(hertz),
        }
    }
}

/// A divider, the rate that it reaches and that rate's distance from the wanted one.
#[derive(Clone, Copy, Debug)]
pub struct Plan {
    pub reached: f64,
    pub distance: f64,
    pub divider: u8,
}

impl Plan {
    /// What is handed back with a refusal.
    const REFUSED: Plan = Plan {
        reached: 0.0,
        distance: 0.0,
        divider: 0,
    };

    /// What this divider makes of a clock, whether it suits or not.
    fn with(divider: u8, hertz: f64, wanted: f64) -> Plan {
        let sixteenth = hertz / 16.0;
        let reached = sixteenth / (f64::from(divider) + 1.0);
        let distance = if reached > wanted {
            reached - wanted
        } else {
            wanted - reached
        };
        Plan {
            reached,
            distance,
            divider,
        }
    }
}

/// Plans a clock for a wanted rate: refusal number (0: none) and plan.
pub fn plan(clock: Clock, wanted: u32) -> (u8, Plan) {
    let Some(hertz) = clock.hertz() else {
        return (CLOCK, Plan::REFUSED);
    };
    if !RATES.contains(&wanted) {
        return (WANTED_RATE, Plan::REFUSED);
    }
    (0, nearest(hertz, f64::from(wanted)))
}

/// The plan of least distance, of several such ones that with the smallest divider.
fn nearest(hertz: f64, wanted: f64) -> Plan {
    let mut nearest = Plan::with(0, hertz, wanted);
    for divider in 1..=255 {
        let tried = Plan::with(divider, hertz, wanted);
        if tried.distance < nearest.distance {
            nearest = tried;
        }
    }
    nearest
}
