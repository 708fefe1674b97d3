//! Counts what the cases met: each row of document 01's packet table by its outcome, open or closed, each refusal of each call, each edge of a block.
//! It follows the packets by their lengths and takes the registers from the answers; it knows nothing of images but where blocks lie and the ID stands.

use crate::answer::Answer;
use crate::case::{Beginning, Case, ID_PLACES};
use crate::events::Events;

/// What a run of the gate's length has to meet.
const WANTED: &[&str] = &[
    "start: refusal 0",
    "start: refusal 1",
    "start: refusal 2",
    "byte: refusal 0",
    "byte: refusal 1",
    "byte: refusal 3",
    "byte: refusal 4",
    "run: refusal 0",
    "run: refusal 1",
    "run: refusal 3",
    "run: refusal 4",
    "run: stopped for room",
    "run: empty",
    "asleep: 00",
    "asleep: B0 wakes",
    "asleep: B0 too early",
    "asleep: other",
    "FF open: inside",
    "FF open: outside",
    "FF closed: dropped",
    "41 open: equal",
    "41 open: differs",
    "41 open: outside",
    "41 open: protected",
    "41 open: standing",
    "41 closed: dropped",
    "49 open: equal",
    "49 open: differs",
    "49 open: none",
    "49 open: bank",
    "49 open: bank alone",
    "49 open: outside",
    "49 open: protected",
    "49 open: standing",
    "49 closed: dropped",
    "20 open: cancelled",
    "20 open: standing",
    "20 open: unconfirmed",
    "20 open: outside",
    "20 open: protected",
    "20 open: erased",
    "20 closed: dropped",
    "A7 open: cancelled",
    "A7 open: standing",
    "A7 open: unconfirmed",
    "A7 open: erased",
    "A7 closed: dropped",
    "50 open: taken",
    "50 closed: dropped",
    "70 open: taken",
    "70 closed: taken",
    "FB open: taken",
    "FB closed: taken",
    "B0 open: taken",
    "B0 closed: taken",
    "B1 open: taken",
    "B1 closed: taken",
    "B2 open: taken",
    "B2 closed: taken",
    "B3 open: taken",
    "B3 closed: taken",
    "B4 open: taken",
    "B4 closed: taken",
    "00 open: taken",
    "00 closed: taken",
    "B5 open: unknown",
    "B5 closed: unknown",
    "75 open: unknown",
    "75 closed: unknown",
    "F5 open: blank",
    "F5 open: right after 0 wrong",
    "F5 open: right after 1 wrong",
    "F5 open: right after 2 wrong",
    "F5 open: wrong after 0 wrong",
    "F5 open: wrong after 1 wrong",
    "F5 open: wrong after 2 wrong",
    "F5 closed: right after 0 wrong",
    "F5 closed: right after 1 wrong",
    "F5 closed: right after 2 wrong",
    "F5 closed: wrong after 0 wrong",
    "F5 closed: wrong after 1 wrong",
    "F5 closed: wrong after 2 wrong",
    "F5 open: the stored ID after 3 wrong",
    "F5 open: another after 3 wrong",
    "F5 closed: the stored ID after 3 wrong",
    "F5 closed: another after 3 wrong",
    "given: more than 3 wrong",
    "given: blank and wrong",
    "written: place 0",
    "written: place 2047",
    "written: place 2048",
    "written: place 4095",
    "written: place 4096",
    "written: place 12287",
    "written: place 12288",
    "written: place 20479",
    "written: up to 65535",
];

pub enum Phase {
    /// With the count of zeros.
    Asleep(usize),
    Command,
    /// With the command byte, and what has followed it.
    Packet(u8, Vec<u8>),
}

#[derive(Default)]
pub struct Watch {
    pub events: Events,
}

/// The block of an address and its place in the image.
fn find(address: usize) -> Option<(usize, usize)> {
    match address {
        0x2000..=0x27FF => Some((0, address - 0x2000)),
        0x2800..=0x2FFF => Some((1, address - 0x2800 + 2048)),
        0xC000..=0xDFFF => Some((2, address - 0xC000 + 4096)),
        0xE000..=0xFFFF => Some((3, address - 0xE000 + 12288)),
        _ => None,
    }
}

/// What follows F5 in the right ID packet of an image, as it is at the start: few cases change it.
pub fn stored_id(image: &[u8]) -> Vec<u8> {
    let id = ID_PLACES.map(|k| image.get(k).copied().unwrap_or(0));
    [&[0xDF, 0xFF, 0x00, 0x07], &id[..]].concat()
}

/// How many bytes follow the command byte, as far as those that have come say it.
pub fn length(command: u8, got: &[u8]) -> usize {
    match command {
        0xFF => 2,
        0x41 => 258,
        0x20 => 3,
        0xA7 => 1,
        _ => 4 + got.get(3).copied().unwrap_or(0) as usize,
    }
}

impl Watch {
    pub fn note(&mut self, key: impl Into<String>) {
        self.events.note(key);
    }

    /// Follows a case by the answers that it got.
    pub fn follow(&mut self, case: &Case, answer: &Answer) {
        let (mut phase, mut srd, mut srd1, mut wrong, blank, protection) = match &case.beginning {
            Beginning::Start { protection } => {
                let (refusal, unit) = answer.start.expect("a start has an answer");
                self.note(format!("start: refusal {refusal}"));
                if refusal != 0 {
                    self.refusals(case, answer);
                    return;
                }
                (
                    Phase::Asleep(0),
                    unit[3],
                    unit[4],
                    unit[8],
                    unit[5] == 1,
                    *protection as usize,
                )
            }
            Beginning::Given(r) => {
                let phase = match r.tag {
                    0x00 => Phase::Asleep(r.count as usize),
                    0x01 => Phase::Command,
                    tag => Phase::Packet(tag, r.collected[..(r.count as usize).min(259)].to_vec()),
                };
                if r.mismatches > 3 {
                    self.note("given: more than 3 wrong");
                }
                if r.blank == 1 && r.mismatches > 0 {
                    self.note("given: blank and wrong");
                }
                let blank = r.blank == 1;
                (
                    phase,
                    r.srd,
                    r.srd1,
                    r.mismatches,
                    blank,
                    r.protection as usize,
                )
            }
        };
        let stored = stored_id(&case.image);
        self.refusals(case, answer);
        for call in &answer.calls {
            let group = &case.groups[call.group];
            if group.run {
                return;
            }
            if call.refusal != 0 {
                continue;
            }
            let b = group.bytes[call.byte];
            let open = srd1 == 0x0C;
            phase = match phase {
                Phase::Asleep(zeros) => self.asleep(zeros, b),
                Phase::Command => self.command(b, open),
                Phase::Packet(command, mut got) => {
                    got.push(b);
                    if got.len() < length(command, &got) {
                        Phase::Packet(command, got)
                    } else if command == 0xF5 && !blank {
                        wrong = self.check(&got, open, call.srd1, wrong, &stored);
                        Phase::Command
                    } else {
                        self.end(command, &got, open, srd, call.srd, protection);
                        Phase::Command
                    }
                }
            };
            srd = call.srd;
            srd1 = call.srd1;
        }
    }

    /// Counts a case's calls by refusal, and its runs that are empty or stop early.
    pub fn refusals(&mut self, case: &Case, answer: &Answer) {
        for call in &answer.calls {
            let group = &case.groups[call.group];
            let kind = if group.run { "run" } else { "byte" };
            self.note(format!("{kind}: refusal {}", call.refusal));
            if group.run && call.refusal == 0 {
                if group.bytes.is_empty() {
                    self.note("run: empty");
                } else if call.taken < group.bytes.len() {
                    self.note("run: stopped for room");
                }
            }
        }
    }

    pub fn asleep(&mut self, zeros: usize, b: u8) -> Phase {
        match b {
            0x00 => {
                self.note("asleep: 00");
                Phase::Asleep(zeros + 1)
            }
            0xB0 if zeros >= 16 => {
                self.note("asleep: B0 wakes");
                Phase::Command
            }
            0xB0 => {
                self.note("asleep: B0 too early");
                Phase::Asleep(0)
            }
            _ => {
                self.note("asleep: other");
                Phase::Asleep(0)
            }
        }
    }

    pub fn command(&mut self, b: u8, open: bool) -> Phase {
        let state = if open { "open" } else { "closed" };
        match b {
            0xFF | 0x41 | 0x49 | 0x20 | 0xA7 | 0x50 if !open => {
                self.note(format!("{b:02X} closed: dropped"))
            }
            0xFF | 0x41 | 0x49 | 0x20 | 0xA7 | 0xF5 => return Phase::Packet(b, Vec::new()),
            0x50 | 0x70 | 0xFB | 0x00 | 0xB0..=0xB4 => self.note(format!("{b:02X} {state}: taken")),
            _ => self.note(format!("{b:02X} {state}: unknown")),
        }
        Phase::Command
    }

    /// A complete ID packet of a unit that did not start blank, after so many wrong ones; how many there are then.
    pub fn check(&mut self, got: &[u8], open: bool, srd1: u8, wrong: u8, stored: &[u8]) -> u8 {
        let state = if open { "open" } else { "closed" };
        if wrong >= 3 {
            let which = if got == stored {
                "the stored ID"
            } else {
                "another"
            };
            self.note(format!("F5 {state}: {which} after {wrong} wrong"));
            return wrong;
        }
        let right = srd1 == 0x0C;
        let which = if right { "right" } else { "wrong" };
        self.note(format!("F5 {state}: {which} after {wrong} wrong"));
        wrong + !right as u8
    }

    fn end(
        &mut self,
        command: u8,
        got: &[u8],
        open: bool,
        before: u8,
        after: u8,
        protection: usize,
    ) {
        let page = |mid: usize| (got[mid] as usize) << 8 | (got[mid + 1] as usize) << 16;
        let protected = |block: usize| protection >> block & 1 == 1;
        let outcome = match command {
            0xFF => {
                if find(page(0)).is_some() {
                    "inside"
                } else {
                    "outside"
                }
            }
            0x41 => self.program(page(0), &got[2..], 65_536, before, after, protection),
            0x49 => self.program(
                got[0] as usize | page(1),
                &got[4..],
                65_535,
                before,
                after,
                protection,
            ),
            0x20 | 0xA7 => {
                let confirm = got[got.len() - 1];
                match confirm {
                    0xFF => "cancelled",
                    _ if before != 0x80 => "standing",
                    0xD0 if command == 0xA7 => "erased",
                    0xD0 => match find(page(0)) {
                        None => "outside",
                        Some((block, _)) if protected(block) => "protected",
                        Some(_) => "erased",
                    },
                    _ => "unconfirmed",
                }
            }
            _ => "blank",
        };
        let state = if open { "open" } else { "closed" };
        self.note(format!("{command:02X} {state}: {outcome}"));
    }

    fn program(
        &mut self,
        address: usize,
        data: &[u8],
        most: usize,
        before: u8,
        after: u8,
        protection: usize,
    ) -> &'static str {
        if before != 0x80 {
            return "standing";
        }
        if data.is_empty() {
            return "none";
        }
        let places: Vec<_> = (0..data.len()).map(|j| find(address + j)).collect();
        let outside = places.iter().any(|p| p.is_none());
        let protected = places
            .iter()
            .flatten()
            .any(|(block, _)| protection >> block & 1 == 1);
        if address % 65_536 + data.len() > most {
            return if outside || protected {
                "bank"
            } else {
                "bank alone"
            };
        }
        if outside {
            return "outside";
        }
        if protected {
            return "protected";
        }
        if address % 65_536 + data.len() == most {
            self.note(format!("written: up to {most}"));
        }
        for (_, place) in places.into_iter().flatten() {
            if [0, 2047, 2048, 4095, 4096, 12287, 12288, 20479].contains(&place) {
                self.note(format!("written: place {place}"));
            }
        }
        if after == 0x80 {
            "equal"
        } else {
            "differs"
        }
    }

    /// The table, and whether each wanted row was met often enough.
    pub fn report(&self) -> bool {
        self.events.report(WANTED)
    }
}
