//! Judges a pair by its own two answers: what they show after as many bytes has to be the same, up to the byte that opens the units.

use crate::answer::Answer;
use crate::pair_draw::Pair;
use crate::pair_history::{History, Point};
use crate::reading::Reading;

/// Where the protection stands in a unit record, the one field in which the two may differ.
pub const PROTECTION: usize = 6;

/// Where two histories part within the first `most` bytes, if they do.
fn parting(histories: [&History; 2], most: usize) -> Option<String> {
    let mut points: Vec<(usize, &Point)> = Vec::new();
    for (side, history) in histories.iter().enumerate() {
        let compared = history.points.iter().filter(|p| p.taken <= most);
        points.extend(compared.map(|p| (side, p)));
    }
    points.sort_by_key(|(_, p)| p.taken);
    let mut last: Option<(usize, &Point)> = None;
    for (side, p) in points {
        // two calls after as many bytes: one of each side, or two of a side, the later of which took none
        if let Some((before, q)) = last.filter(|(_, q)| q.taken == p.taken && *q != p) {
            return Some(format!(
                "side {}: {q}\n  side {}: {p}",
                before + 1,
                side + 1
            ));
        }
        // the replies to fewer bytes are the front of the replies to more
        let [reply, other] = [side, 1 - side].map(|k| &histories[k].reply);
        if histories[1 - side].by_run.len() >= p.taken {
            if let Some(k) = (0..p.replied).find(|&k| other.get(k) != reply.get(k)) {
                let [first, second] = histories.map(|h| h.reply.get(k));
                return Some(format!(
                    "after {} bytes, reply byte {}: side 1: {first:02X?}, side 2: {second:02X?}",
                    p.taken,
                    k + 1
                ));
            }
        }
        last = Some((side, p));
    }
    None
}

/// Where two unit records differ in more than the protection, if they do.
fn records(when: &str, here: &[u8], there: &[u8]) -> Option<String> {
    let k = (0..here.len()).find(|&k| k != PROTECTION && here[k] != there[k])?;
    Some(format!(
        "the unit records {when}, at place {k}: side 1: {:02X}, side 2: {:02X}",
        here[k], there[k]
    ))
}

/// What is wrong with a pair's answers; nothing if the two sides agree.
pub fn difference(
    pair: &Pair,
    reading: &Reading,
    answers: &[Answer; 2],
    histories: &[History; 2],
) -> Option<String> {
    let [here, there] = answers;
    let [first, second] = histories;
    let starts = [here, there].map(|a| a.start.expect("a start has an answer").1);
    let found = records("at the start", starts[0], starts[1])
        .or_else(|| parting([first, second], reading.len()));
    if found.is_some() {
        return found;
    }
    for (k, history) in histories.iter().enumerate() {
        if let Some(fault) = &history.fault {
            return Some(format!("side {}: {fault}", k + 1));
        }
    }
    if pair.stream.len() > reading.len() {
        return None;
    }
    let found = records("at the end", here.record, there.record);
    if found.is_some() {
        return found;
    }
    for (k, (side, answer)) in pair.sides.iter().zip(answers).enumerate() {
        if side.case.image != answer.image {
            return Some(format!("side {}: the image has changed at the end", k + 1));
        }
    }
    None
}

#[cfg(test)]
mod tests {
    use super::*;

    /// A history of byte calls and runs, by how many bytes each took and what it replied; SRD 80, SRD1 00.
    fn made(calls: &[(usize, &[u8])]) -> History {
        let mut made = History {
            points: vec![],
            reply: vec![],
            by_run: vec![],
            fault: None,
        };
        for (taken, reply) in calls {
            made.by_run.extend(vec![*taken > 1; *taken]);
            made.reply.extend(*reply);
            made.points.push(Point {
                taken: made.by_run.len(),
                replied: made.reply.len(),
                srd: 0x80,
                srd1: 0x00,
            });
        }
        made
    }

    fn parts(here: &History, there: &History, most: usize) -> bool {
        let found = parting([here, there], most);
        assert_eq!(found.is_some(), parting([there, here], most).is_some());
        found.is_some()
    }

    #[test]
    fn cuts_alone_do_not_part() {
        let bytes = made(&[(1, &[]), (1, &[7]), (0, &[]), (1, &[8, 9]), (1, &[])]);
        let runs = made(&[(0, &[]), (2, &[7]), (2, &[8, 9])]);
        assert!(!parts(&bytes, &runs, 4));
        assert!(!parts(&bytes, &made(&[(4, &[7, 8, 9])]), 4));
    }

    #[test]
    fn a_reply_parts() {
        let bytes = made(&[(1, &[]), (1, &[7]), (1, &[8, 9]), (1, &[])]);
        for other in [
            // another byte, in a longer run too, and a byte later
            made(&[(2, &[6]), (2, &[8, 9])]),
            made(&[(4, &[7, 8, 6])]),
            made(&[(2, &[]), (2, &[7, 8, 9])]),
            // at the end one too few, one too many
            made(&[(4, &[7, 8])]),
            made(&[(4, &[7, 8, 9, 9])]),
        ] {
            assert!(parts(&bytes, &other, 4));
        }
        // a call that takes no byte and replies
        assert!(parts(&bytes, &made(&[(2, &[7]), (0, &[8]), (2, &[9])]), 4));
    }

    #[test]
    fn registers_part() {
        let bytes = made(&[(1, &[]), (1, &[])]);
        for (srd, srd1) in [(0x90, 0x00), (0x80, 0x04)] {
            let mut other = made(&[(2, &[])]);
            (other.points[0].srd, other.points[0].srd1) = (srd, srd1);
            assert!(parts(&bytes, &other, 2));
        }
    }

    #[test]
    fn nothing_parts_after_the_opening_byte() {
        let bytes = made(&[(1, &[]), (1, &[7]), (1, &[8])]);
        let other = made(&[(1, &[]), (1, &[7]), (1, &[5])]);
        assert!(parts(&bytes, &other, 3));
        assert!(!parts(&bytes, &other, 2));
        // a run over it is compared up to it
        assert!(!parts(&bytes, &made(&[(3, &[7, 5])]), 2));
        assert!(parts(&bytes, &made(&[(3, &[6, 5])]), 2));
    }

    #[test]
    fn records_may_differ_in_the_protection_alone() {
        let here = [0u8; 268];
        for k in 0..268 {
            let mut there = here;
            there[k] = 1;
            assert_eq!(records("", &here, &there).is_none(), k == PROTECTION);
        }
    }
}
