//! Holds the proved planner (document 02, Item 7) to the second program and to typed plans, bit for bit.

use crate::events::Events;
use crate::plan_draw;
use crate::plan_rows::{self, MHZ_2, MHZ_20, RATES};
use crate::programs::Programs;
use crate::random::Random;

const ANSWER: usize = 18;

/// Asks to a batch.
const BATCH: usize = 50_000;

const WANTED: &[&str] = &[
    "refusal 0",
    "refusal 9",
    "refusal 10",
    "refusal 9, rate wrong too",
    "clock 8 MHz",
    "clock 7.3728 MHz",
    "clock external",
    "rate 9600",
    "rate 19200",
    "rate 38400",
    "rate 57600",
    "rate 115200",
    "divider 0",
    "divider over 100",
    "exact",
    "too fast",
    "too slow",
    "next divider as near",
    "clock is 2,000,000",
    "clock is next below 2,000,000",
    "clock is 20,000,000",
    "clock is next above 20,000,000",
    "clock is a NaN",
    "clock is an infinity",
    "clock is a zero",
    "clock is subnormal",
    "clock is negative",
];

/// A clock (0: 8 MHz, 1: 7.3728 MHz, 2: external), its frequency's pattern, and the wanted rate.
#[derive(Clone, Copy, Debug)]
pub struct Ask {
    pub clock: u8,
    pub frequency: u64,
    pub rate: u32,
}

#[derive(Clone, Copy, Debug, PartialEq)]
pub struct Plan {
    pub refusal: u8,
    pub divider: u8,
    pub reached: u64,
    pub distance: u64,
}

impl Ask {
    pub fn external(hertz: f64, rate: u32) -> Ask {
        Ask {
            clock: 2,
            frequency: hertz.to_bits(),
            rate,
        }
    }

    fn lay(&self, bytes: &mut Vec<u8>) {
        bytes.push(self.clock);
        bytes.extend(self.frequency.to_le_bytes());
        bytes.extend(self.rate.to_le_bytes());
    }
}

impl Plan {
    pub fn refused(refusal: u8) -> Plan {
        Plan {
            refusal,
            divider: 0,
            reached: 0,
            distance: 0,
        }
    }

    fn of(bytes: &[u8]) -> Plan {
        let word = |at: usize| u64::from_le_bytes(bytes[at..at + 8].try_into().expect("8 bytes"));
        Plan {
            refusal: bytes[0],
            divider: bytes[1],
            reached: word(2),
            distance: word(10),
        }
    }

    /// Further from the wanted rate than 5 per cent of it.
    fn is_far(&self, rate: u32) -> bool {
        f64::from_bits(self.distance) > 0.05 * f64::from(rate)
    }
}

/// Both programs' plans; where an answer is missing, or there is one too many, an error.
fn ask(programs: &Programs, asks: &[Ask]) -> Result<(Vec<Plan>, Vec<Plan>), String> {
    let mut bytes = Vec::new();
    for ask in asks {
        ask.lay(&mut bytes);
    }
    let (port, reference) = programs.ask(&bytes)?;
    for (who, answers) in [("planner", &port), ("reference", &reference)] {
        if answers.len() != ANSWER * asks.len() {
            return Err(format!(
                "{who}: {} bytes for {} asks",
                answers.len(),
                asks.len()
            ));
        }
    }
    let plans = |answers: &[u8]| answers.chunks(ANSWER).map(Plan::of).collect();
    Ok((plans(&port), plans(&reference)))
}

/// Holds both programs' plans to what rows say of them; `what` names the rows.
fn hold<T>(
    programs: &Programs,
    what: &str,
    rows: &[(Ask, T)],
    is_right: impl Fn(&Ask, &T, &Plan) -> bool,
) -> Result<bool, String> {
    let asks: Vec<Ask> = rows.iter().map(|row| row.0).collect();
    let (port, reference) = ask(programs, &asks)?;
    let mut good = true;
    for (who, plans) in [("planner", &port), ("reference", &reference)] {
        for ((asked, said), plan) in rows.iter().zip(plans) {
            if !is_right(asked, said, plan) {
                println!("{what}: {who}: {asked:X?}: {plan:X?}");
                good = false;
            }
        }
    }
    println!("{what}: {} by both programs", rows.len());
    Ok(good)
}

fn note_clock(events: &mut Events, frequency: u64) {
    let clock = f64::from_bits(frequency);
    for (is, what) in [
        (frequency == MHZ_2, "2,000,000"),
        (frequency == MHZ_2 - 1, "next below 2,000,000"),
        (frequency == MHZ_20, "20,000,000"),
        (frequency == MHZ_20 + 1, "next above 20,000,000"),
        (clock.is_nan(), "a NaN"),
        (clock.is_infinite(), "an infinity"),
        (clock == 0.0, "a zero"),
        (clock.is_subnormal(), "subnormal"),
        (clock < 0.0, "negative"),
    ] {
        if is {
            events.note(format!("clock is {what}"));
        }
    }
}

fn note_plan(events: &mut Events, hertz: f64, rate: u32, plan: &Plan) {
    let (reached, wanted) = (f64::from_bits(plan.reached), f64::from(rate));
    events.note(format!("rate {rate}"));
    if plan.divider == 0 {
        events.note("divider 0");
    }
    if plan.divider > 100 {
        events.note("divider over 100");
    }
    events.note(if reached > wanted {
        "too fast"
    } else if reached < wanted {
        "too slow"
    } else {
        "exact"
    });
    let next = hertz / 16.0 / (f64::from(plan.divider) + 2.0);
    if (next - wanted).abs().to_bits() == plan.distance {
        events.note("next divider as near");
    }
}

fn follow(events: &mut Events, asked: &Ask, plan: &Plan) {
    events.note(format!("refusal {}", plan.refusal));
    if plan.refusal == 9 && !RATES.contains(&asked.rate) {
        events.note("refusal 9, rate wrong too");
    }
    let (clock, hertz) = match asked.clock {
        0 => ("8 MHz", 8_000_000.0),
        1 => ("7.3728 MHz", 7_372_800.0),
        _ => {
            note_clock(events, asked.frequency);
            ("external", f64::from_bits(asked.frequency))
        }
    };
    events.note(format!("clock {clock}"));
    if plan.refusal == 0 {
        note_plan(events, hertz, asked.rate, plan);
    }
}

pub fn compare(programs: &Programs, count: usize, seed: u64) -> Result<bool, String> {
    let typed = plan_rows::all();
    let table = plan_rows::table();
    let mut good = hold(programs, "typed plans", &typed, |_, wanted, plan| {
        plan == wanted
    })?;
    // a plan that is more than 5 per cent off does not work
    let title = "entries of source document 000's Table 3.3.1";
    good &= hold(programs, title, &table, |asked, works, plan| {
        plan.refusal == 0 && plan.is_far(asked.rate) != *works
    })?;
    let mut random = Random::new(seed);
    let mut events = Events::default();
    let mut done = 0;
    while done < count {
        let asks: Vec<Ask> = (0..BATCH.min(count - done))
            .map(|_| plan_draw::ask(&mut random))
            .collect();
        let (port, reference) = ask(programs, &asks)?;
        for (k, asked) in asks.iter().enumerate() {
            if port[k] != reference[k] {
                println!("DIFFERENCE: seed {seed}, plan {}: {asked:X?}", done + k);
                println!("  planner:   {:X?}", port[k]);
                println!("  reference: {:X?}", reference[k]);
                return Ok(false);
            }
            follow(&mut events, asked, &port[k]);
        }
        done += asks.len();
    }
    let enough = events.report(WANTED);
    good &= enough || count < 100_000;
    println!("compared {count} plans from seed {seed}: no difference");
    Ok(good)
}
