//! Batches of plans: the reader and the answer writer of CASES.md's format of plans.

use crate::batch::{read_up_to, Stop};
use crate::plan::{plan, Clock, Plan};
use std::io::{Read, Write};

const RECORD_LEN: usize = 13;
const ANSWER_LEN: usize = 18;

/// Answers every record of the input. Nothing is written for a record that is not well formed, and
/// nothing after it is read.
pub fn replan(input: &mut impl Read, output: &mut impl Write) -> Result<(), Stop> {
    let mut record = [0; RECORD_LEN];
    for number in 1.. {
        match read_up_to(input, &mut record)? {
            0 => break,
            RECORD_LEN => {}
            _ => return Err(Stop::Malformed(number)),
        }
        let (clock, wanted) = decode(&record).ok_or(Stop::Malformed(number))?;
        let (refusal, plan) = plan(clock, wanted);
        output.write_all(&encode(refusal, &plan))?;
    }
    Ok(())
}

/// The clock and the wanted rate of a record; none for a clock over 2.
fn decode(record: &[u8; RECORD_LEN]) -> Option<(Clock, u32)> {
    let [clock, f0, f1, f2, f3, f4, f5, f6, f7, rate @ ..] = *record;
    let clock = match clock {
        0 => Clock::Fixed8MHz,
        1 => Clock::Fixed7_3728MHz,
        2 => Clock::External(f64::from_le_bytes([f0, f1, f2, f3, f4, f5, f6, f7])),
        _ => return None,
    };
    Some((clock, u32::from_le_bytes(rate)))
}

fn encode(refusal: u8, plan: &Plan) -> [u8; ANSWER_LEN] {
    let mut answer = [0; ANSWER_LEN];
    answer[0] = refusal;
    answer[1] = plan.divider;
    answer[2..10].copy_from_slice(&plan.reached.to_le_bytes());
    answer[10..].copy_from_slice(&plan.distance.to_le_bytes());
    answer
}
