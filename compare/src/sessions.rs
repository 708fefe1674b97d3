//! Document 01's twelve sessions at the edges, session 11 as document 02's Item 3 has it, and the edges of Items 3 and 5, with what they must answer typed from the documents.

use crate::answer::Answer;
use crate::case::{Beginning, Case, Group, Record, ID_PLACES, IMAGE};

pub struct Session {
    pub name: &'static str,
    pub case: Case,
    /// The start's refusal, where the session is about it.
    start: Option<u8>,
    /// The replies that come, by the byte's number from 1.
    replies: Vec<(usize, Vec<u8>)>,
    /// SRD and SRD1 at the end.
    registers: (u8, u8),
    /// The count of wrong ID checks at the end.
    mismatches: u8,
    /// The bytes of the image that have changed at the end.
    changed: Vec<(usize, u8)>,
}

/// IDs 31 to 37, not blank, F0 at 02000.
fn image() -> Vec<u8> {
    let mut image = vec![0xFF; IMAGE];
    image[0] = 0xF0;
    for (k, b) in ID_PLACES.into_iter().zip(0x31..) {
        image[k] = b;
    }
    image[20476..20479].copy_from_slice(&[0x00, 0xE0, 0x00]);
    image
}

fn session(
    name: &'static str,
    beginning: Beginning,
    bytes: &[u8],
    replies: &[(usize, &[u8])],
    registers: (u8, u8),
) -> Session {
    Session {
        name,
        case: Case {
            beginning,
            trace: false,
            image: image(),
            groups: vec![Group {
                run: false,
                area: 256,
                fill: 0xEE,
                bytes: bytes.to_vec(),
            }],
        },
        start: None,
        replies: replies.iter().map(|(n, r)| (*n, r.to_vec())).collect(),
        registers,
        mismatches: 0,
        changed: Vec::new(),
    }
}

/// Awake at a command, SRD 80.
fn record(srd1: u8) -> Record {
    Record {
        tag: 0x01,
        count: 0,
        srd: 0x80,
        srd1,
        blank: 0,
        protection: 0,
        rate: 0,
        mismatches: 0,
        collected: [0; 259],
    }
}

fn given(record: Record) -> Beginning {
    Beginning::Given(Box::new(record))
}

fn closed() -> Beginning {
    given(record(0x00))
}

fn open(protection: u8) -> Beginning {
    given(Record {
        protection,
        ..record(0x0C)
    })
}

fn started(length: usize, protection: u8, refusal: u8, name: &'static str) -> Session {
    let mut s = session(
        name,
        Beginning::Start { protection },
        &[],
        &[],
        (0x80, 0x00),
    );
    s.case.image = image();
    s.case.image.resize(length, 0xFF);
    s.start = Some(refusal);
    s
}

fn with_page(head: &[u8], data: &[u8], tail: &[u8]) -> Vec<u8> {
    [head, data, tail].concat()
}

/// A unit program of zeros in page 0FF00. They can stand over whatever lies there, so that 90 comes from where they end; the reset vector is FF, so that each of them is seen.
fn unit_zeros(name: &'static str, low: u8, size: u8, srd: u8) -> Session {
    let n = size as usize;
    let mut s = session(
        name,
        open(0),
        &with_page(&[0x49, low, 0xFF, 0x00, size], &vec![0; n], &[0x70]),
        &[(6 + n, &[srd, 0x0C])],
        (srd, 0x0C),
    );
    s.case.image[20476..20479].fill(0xFF);
    if srd == 0x80 {
        let first = 20224 + low as usize;
        s.changed = (first..first + n).map(|k| (k, 0x00)).collect();
    }
    s
}

/// The right ID packet and a 70; the same with another last byte, another address, six bytes, and none.
const RIGHT: &[u8] = &[
    0xF5, 0xDF, 0xFF, 0x00, 0x07, 0x31, 0x32, 0x33, 0x34, 0x35, 0x36, 0x37, 0x70,
];
const LAST_38: &[u8] = &[
    0xF5, 0xDF, 0xFF, 0x00, 0x07, 0x31, 0x32, 0x33, 0x34, 0x35, 0x36, 0x38, 0x70,
];
const OTHER_ADDRESS: &[u8] = &[
    0xF5, 0xDE, 0xFF, 0x00, 0x07, 0x31, 0x32, 0x33, 0x34, 0x35, 0x36, 0x37, 0x70,
];
const SIX: &[u8] = &[
    0xF5, 0xDF, 0xFF, 0x00, 0x06, 0x31, 0x32, 0x33, 0x34, 0x35, 0x36, 0x70,
];
const NONE: &[u8] = &[0xF5, 0xDF, 0xFF, 0x00, 0x00, 0x70];

/// ID packets, each with a 70 and the SRD1 that it replies, and the count at the end.
fn checks(
    name: &'static str,
    beginning: Beginning,
    packets: &[(&[u8], u8)],
    mismatches: u8,
) -> Session {
    let mut bytes = Vec::new();
    let mut replies = Vec::new();
    for (packet, srd1) in packets {
        bytes.extend(*packet);
        replies.push((bytes.len(), vec![0x80, *srd1]));
    }
    let last = packets[packets.len() - 1].1;
    let mut s = session(name, beginning, &bytes, &[], (0x80, last));
    s.replies = replies;
    s.mismatches = mismatches;
    s
}

/// Document 02's Item 5, with the readings D1 to D5 of docs/DECISIONS.md.
fn three_wrong() -> Vec<Session> {
    let hand_made = given(Record {
        mismatches: 3,
        ..record(0x0C)
    });
    let blank = given(Record {
        blank: 1,
        ..record(0x0C)
    });
    vec![
        checks(
            "Item 5, right after two wrong",
            closed(),
            &[(LAST_38, 0x04), (NONE, 0x04), (RIGHT, 0x0C)],
            2,
        ),
        checks(
            "Item 5, right after three wrong",
            closed(),
            &[
                (LAST_38, 0x04),
                (NONE, 0x04),
                (OTHER_ADDRESS, 0x04),
                (RIGHT, 0x04),
                (RIGHT, 0x04),
            ],
            3,
        ),
        checks("Item 5, wrong while open", open(0), &[(SIX, 0x04)], 1),
        checks(
            "Item 5, by turns",
            closed(),
            &[
                (RIGHT, 0x0C),
                (NONE, 0x04),
                (RIGHT, 0x0C),
                (SIX, 0x04),
                (RIGHT, 0x0C),
                (LAST_38, 0x04),
                (RIGHT, 0x04),
            ],
            3,
        ),
        checks("Item 5, right on count 3", hand_made, &[(RIGHT, 0x04)], 3),
        checks(
            "Item 5, blank",
            blank,
            &[(NONE, 0x0C), (NONE, 0x0C), (NONE, 0x0C), (NONE, 0x0C)],
            0,
        ),
        session("Item 5, cut off", closed(), &NONE[..4], &[], (0x80, 0x00)),
    ]
}

pub fn all() -> Vec<Session> {
    let zeros = |n: usize| [vec![0; n], vec![0xB0]].concat();
    let asleep = || Beginning::Start { protection: 0 };
    let mut nine = session(
        "9",
        open(0),
        &[0x49, 0x00, 0x20, 0x00, 0x01, 0x0F, 0x70],
        &[(7, &[0x90, 0x0C])],
        (0x90, 0x0C),
    );
    nine.changed = vec![(0, 0x00)];
    let mut page_ff00 = session(
        "Item 3, page 0FF00",
        open(0),
        &with_page(&[0x41, 0xFF, 0x00], &[0; 256], &[0x70]),
        &[(260, &[0x80, 0x0C])],
        (0x80, 0x0C),
    );
    page_ff00.changed = (20224..20480).map(|k| (k, 0x00)).collect();
    let page_3000 = with_page(&[0x41, 0x30, 0x00], &[0; 256], &[0x70]);
    let mut sessions = vec![
        checks("1", closed(), &[(RIGHT, 0x0C)], 0),
        checks("2", closed(), &[(LAST_38, 0x04)], 1),
        checks("3, address", closed(), &[(OTHER_ADDRESS, 0x04)], 1),
        checks("3, size 06", closed(), &[(SIX, 0x04)], 1),
        checks("4", closed(), &[(NONE, 0x04)], 1),
        session(
            "5",
            closed(),
            &[0xFF, 0x00, 0x20, 0x70],
            &[(4, &[0x80, 0x00])],
            (0x80, 0x00),
        ),
        session("6, fifteen", asleep(), &zeros(15), &[], (0x80, 0x00)),
        session(
            "6, sixteen",
            asleep(),
            &zeros(16),
            &[(17, &[0xB0])],
            (0x80, 0x00),
        ),
        session(
            "6, seventeen",
            asleep(),
            &zeros(17),
            &[(18, &[0xB0])],
            (0x80, 0x00),
        ),
        session(
            "7, D1",
            open(0),
            &[0x20, 0xC0, 0x00, 0xD1, 0x70],
            &[(5, &[0xB0, 0x0C])],
            (0xB0, 0x0C),
        ),
        session(
            "7, FF",
            open(0),
            &[0x20, 0xC0, 0x00, 0xFF, 0x70],
            &[(5, &[0x80, 0x0C])],
            (0x80, 0x0C),
        ),
        session(
            "8",
            open(4),
            &[0x20, 0xC0, 0x00, 0xD0, 0x70],
            &[(5, &[0xA0, 0x0C])],
            (0xA0, 0x0C),
        ),
        nine,
        session(
            "10, read",
            open(0),
            &[0xFF, 0x30, 0x00],
            &[(3, &[0xFF; 256])],
            (0x80, 0x0C),
        ),
        session(
            "10, program",
            open(0),
            &page_3000,
            &[(260, &[0x90, 0x0C])],
            (0x90, 0x0C),
        ),
        unit_zeros("11, size 0F", 0xF0, 0x0F, 0x80),
        unit_zeros("11, size 10", 0xF0, 0x10, 0x90),
        unit_zeros("Item 3, 0FFF0, size 0E", 0xF0, 0x0E, 0x80),
        unit_zeros("Item 3, 0FFF0, size 11", 0xF0, 0x11, 0x90),
        unit_zeros("Item 3, 0FFFE, size 01", 0xFE, 0x01, 0x80),
        unit_zeros("Item 3, 0FFFF, size 01", 0xFF, 0x01, 0x90),
        page_ff00,
        started(IMAGE - 1, 0, 1, "12, 20,479 bytes"),
        started(IMAGE + 1, 0, 1, "12, 20,481 bytes"),
        started(IMAGE, 15, 0, "12, protection 15"),
        started(IMAGE, 16, 2, "12, protection 16"),
    ];
    sessions.extend(three_wrong());
    sessions
}

impl Session {
    /// What differs from the typed values, if anything.
    pub fn fault(&self, answer: &Answer) -> Option<String> {
        if let Some(wanted) = self.start {
            let (refusal, _) = answer.start?;
            return (refusal != wanted)
                .then(|| format!("the start's refusal is {refusal} and not {wanted}"));
        }
        let mut replies = Vec::new();
        for call in &answer.calls {
            if call.refusal != 0 {
                return Some(format!("byte {}: refusal {}", call.byte + 1, call.refusal));
            }
            if call.reply_len > 0 {
                replies.push((call.byte + 1, call.reply().to_vec()));
            }
        }
        if replies != self.replies {
            let told = |replies: &[(usize, Vec<u8>)]| -> Vec<String> {
                replies
                    .iter()
                    .map(|(n, r)| format!("{n}: {r:02X?}"))
                    .collect()
            };
            return Some(format!(
                "replies {:?} and not {:?}",
                told(&replies),
                told(&self.replies)
            ));
        }
        let registers = (answer.record[3], answer.record[4]);
        if registers != self.registers {
            return Some(format!(
                "SRD, SRD1 {registers:02X?} and not {:02X?}",
                self.registers
            ));
        }
        let mismatches = answer.record[8];
        if mismatches != self.mismatches {
            return Some(format!(
                "{mismatches} wrong ID checks counted and not {}",
                self.mismatches
            ));
        }
        let mut wanted = self.case.image.clone();
        for &(k, b) in &self.changed {
            wanted[k] = b;
        }
        let differs = (0..wanted.len()).find(|&k| wanted[k] != answer.image[k])?;
        Some(format!(
            "image byte {differs} is {:02X} and not {:02X}",
            answer.image[differs], wanted[differs]
        ))
    }
}
