//! What a side of a pair shows by its answer, call by call, and whether its calls went as they were meant to.

use crate::answer::{Answer, Call};
use crate::case::Case;
use crate::pair_draw::Side;
use crate::reading::Reading;
use std::fmt;

/// What is seen after a call: how many bytes are taken and how many replied since the start, and the registers.
#[derive(PartialEq)]
pub struct Point {
    pub taken: usize,
    pub replied: usize,
    pub srd: u8,
    pub srd1: u8,
}

/// A side up to the opening byte, or to where its answer is not what its calls were cut for.
pub struct History {
    /// At the start, and after each call.
    pub points: Vec<Point>,
    pub reply: Vec<u8>,
    /// For each byte that is taken, whether a run took it.
    pub by_run: Vec<bool>,
    pub fault: Option<String>,
}

impl fmt::Display for Point {
    fn fmt(&self, f: &mut fmt::Formatter) -> fmt::Result {
        write!(
            f,
            "{} bytes taken, {} replied, SRD {:02X}, SRD1 {:02X}",
            self.taken, self.replied, self.srd, self.srd1
        )
    }
}

/// What a call's answer has against the packet rules, or has changed of what is lent; `taken` bytes are taken after it, and `end` were meant to be. The replies and the registers are for the other side to judge.
fn fault(call: &Call, case: &Case, taken: usize, end: usize, reading: &Reading) -> Option<String> {
    let group = &case.groups[call.group];
    let most = reading.len();
    let refusal = if group.area < 256 { 3 } else { 0 };
    if call.refusal != refusal {
        Some(format!("refusal {}, area {}", call.refusal, group.area))
    } else if taken.min(most) != end.min(most) {
        Some(format!(
            "{taken} bytes taken, by the rules {}",
            end.min(most)
        ))
    } else if taken <= most && (call.srd1 == 0x0C) != (reading.opens && taken == most) {
        let opening = match reading.opens {
            true => format!("byte {most} opens the unit"),
            false => "no byte opens the unit".to_string(),
        };
        Some(format!(
            "after {taken} bytes SRD1 is {:02X}, by the rules {opening}",
            call.srd1
        ))
    } else if call.area[call.reply().len()..]
        .iter()
        .any(|&b| b != group.fill)
    {
        Some(format!(
            "after {taken} bytes the area behind the reply has changed"
        ))
    } else if taken <= most && call.image.is_some_and(|image| image != case.image) {
        Some(format!("after {taken} bytes the image has changed"))
    } else {
        None
    }
}

pub fn history(side: &Side, answer: &Answer, reading: &Reading) -> History {
    let (refusal, unit) = answer.start.expect("a start has an answer");
    let point = |taken, replied, srd, srd1| Point {
        taken,
        replied,
        srd,
        srd1,
    };
    let mut found = History {
        points: vec![point(0, 0, unit[3], unit[4])],
        reply: Vec::new(),
        by_run: Vec::new(),
        fault: (refusal != 0).then(|| format!("start: refusal {refusal}")),
    };
    for (call, &end) in answer.calls.iter().zip(&side.ends) {
        if found.fault.is_some() || reading.opens && found.by_run.len() >= reading.len() {
            break;
        }
        let run = side.case.groups[call.group].run;
        found.by_run.extend(vec![run; call.taken]);
        found.reply.extend(call.reply());
        let (taken, replied) = (found.by_run.len(), found.reply.len());
        let after = point(taken, replied, call.srd, call.srd1);
        found.points.push(after);
        found.fault = fault(call, &side.case, taken, end, reading);
    }
    found
}

#[cfg(test)]
mod tests {
    use super::*;
    use crate::case::{Beginning, Group};
    use crate::reading;
    use crate::watch::Watch;

    #[test]
    fn a_call_is_held_to_the_rules() {
        // sixteen 00, B0, and by a run of 256 bytes' room 70 alone of 70 FB
        let list = [&[0; 16], &[0xB0, 0x70, 0xFB][..]].concat();
        let reading = reading::read(&list, &[], &mut Watch::default());
        let mut case = Case {
            beginning: Beginning::Start { protection: 0 },
            trace: true,
            image: vec![1, 2],
            groups: vec![Group {
                run: true,
                area: 256,
                fill: 0xEE,
                bytes: vec![0x70, 0xFB],
            }],
        };
        let area = [&[0x80, 0x00], &[0xEE; 254][..]].concat();
        let call = |refusal, srd1, reply_len, image| Call {
            group: 0,
            byte: 0,
            refusal,
            taken: 1,
            reply_len,
            srd: 0x80,
            srd1,
            area: &area,
            image: Some(image),
        };
        let good = call(0, 0x00, 2, &[1, 2]);
        assert_eq!(fault(&good, &case, 18, 18, &reading), None);
        for (bad, taken) in [
            (call(3, 0x00, 2, &[1, 2]), 18),
            (call(0, 0x00, 2, &[1, 2]), 19),
            (call(0, 0x0C, 2, &[1, 2]), 18),
            (call(0, 0x00, 1, &[1, 2]), 18),
            (call(0, 0x00, 2, &[1, 3]), 18),
        ] {
            assert!(fault(&bad, &case, taken, 18, &reading).is_some());
        }
        case.groups[0].area = 255;
        assert!(fault(&good, &case, 18, 18, &reading).is_some());
    }
}
