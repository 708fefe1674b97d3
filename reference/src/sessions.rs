//! The twelve sessions at the edges, with the values that document 01 expects; session 11 as Item 3
//! of document 02 has it.

use crate::flash::{self, IMAGE_LEN};
use crate::port::{byte, start, REPLY_ROOM};
use crate::unit::{srd1, Phase, Unit};

pub const COUNT: usize = 12;

/// The ID bytes of every session.
pub const IDS: [u8; 7] = [0x31, 0x32, 0x33, 0x34, 0x35, 0x36, 0x37];

/// An ID packet that is right in the sessions.
const RIGHT_ID: [u8; 12] = [
    0xF5, 0xDF, 0xFF, 0x00, 0x07, 0x31, 0x32, 0x33, 0x34, 0x35, 0x36, 0x37,
];

/// One comparison of a session.
pub struct Check {
    pub what: &'static str,
    pub expected: String,
    pub got: String,
}

impl Check {
    fn bytes(what: &'static str, expected: &[u8], got: &[u8]) -> Check {
        Check {
            what,
            expected: hex(expected),
            got: hex(got),
        }
    }

    fn number(what: &'static str, expected: u8, got: u8) -> Check {
        Check {
            what,
            expected: expected.to_string(),
            got: got.to_string(),
        }
    }

    pub fn passes(&self) -> bool {
        self.expected == self.got
    }
}

fn hex(bytes: &[u8]) -> String {
    let digits: Vec<String> = bytes.iter().map(|b| format!("{b:02X}")).collect();
    digits.join(" ")
}

/// The line of a session: its number, PASS or FAIL with what was expected.
pub fn line(number: usize, checks: &[Check]) -> String {
    let failed: Vec<String> = checks
        .iter()
        .filter(|check| !check.passes())
        .map(|check| {
            let Check {
                what,
                expected,
                got,
            } = check;
            format!("{what}: expected [{expected}], got [{got}]")
        })
        .collect();
    if failed.is_empty() {
        format!("{number} PASS")
    } else {
        format!("{number} FAIL {}", failed.join("; "))
    }
}

/// A unit with the image that it lives on.
pub struct Rig {
    pub unit: Unit,
    pub image: Vec<u8>,
}

impl Rig {
    /// Freshly started on an image that is not blank: FF but for the ID bytes and the reset vector.
    pub fn asleep(protection: u8) -> Rig {
        let image = image();
        let (_, unit) = start(&image, protection);
        Rig { unit, image }
    }

    /// Awake and closed.
    pub fn closed(protection: u8) -> Rig {
        let mut rig = Rig::asleep(protection);
        rig.unit.phase = Phase::AtCommand;
        rig
    }

    /// Awake and open.
    pub fn open(protection: u8) -> Rig {
        let mut rig = Rig::closed(protection);
        rig.unit.srd1 = srd1::MATCH;
        rig
    }

    /// Gives the unit these bytes one by one; the replies joined.
    pub fn feed(&mut self, bytes: &[u8]) -> Vec<u8> {
        let mut replies = Vec::new();
        let mut area = [0; REPLY_ROOM];
        for &b in bytes {
            let answer = byte(&mut self.unit, &mut self.image, &mut area, b);
            replies.extend_from_slice(&area[..answer.reply_len]);
        }
        replies
    }

    /// The image's byte at an inside address.
    pub fn at(&self, address: u32) -> u8 {
        self.image[flash::offset_at(address).expect("an inside address")]
    }

    pub fn set(&mut self, address: u32, byte: u8) {
        self.image[flash::offset_at(address).expect("an inside address")] = byte;
    }
}

/// The sessions' image: not blank, IDs 31 to 37, all else FF.
pub fn image() -> Vec<u8> {
    let mut image = vec![0xFF; IMAGE_LEN];
    let vector = flash::BLANK_ADDRESSES.into_iter().zip([0x00, 0xC0, 0x00]);
    for (address, byte) in flash::ID_ADDRESSES.into_iter().zip(IDS).chain(vector) {
        image[flash::offset_at(address).expect("an inside address")] = byte;
    }
    image
}

/// A unit program packet.
pub fn unit_program(address: u32, data: &[u8]) -> Vec<u8> {
    let [low, mid, high, _] = address.to_le_bytes();
    let mut packet = vec![0x49, low, mid, high, data.len() as u8];
    packet.extend_from_slice(data);
    packet
}

/// A page program packet, every data byte the same.
pub fn page_program(mid: u8, high: u8, data: u8) -> Vec<u8> {
    let mut packet = vec![0x41, mid, high];
    packet.resize(3 + 256, data);
    packet
}

/// Plays the session of this number, 1 to 12.
pub fn play(number: usize) -> Vec<Check> {
    match number {
        1 => id_session(&RIGHT_ID, [0x80, 0x0C]),
        2 => {
            let mut packet = RIGHT_ID;
            packet[11] = 0x38;
            id_session(&packet, [0x80, 0x04])
        }
        3 => {
            let mut packet = RIGHT_ID;
            packet[1] = 0xDE;
            let mut checks = id_session(&packet, [0x80, 0x04]);
            let mut packet = RIGHT_ID;
            packet[4] = 0x06;
            checks.extend(id_session(&packet[..11], [0x80, 0x04]));
            checks
        }
        4 => id_session(&[0xF5, 0xDF, 0xFF, 0x00, 0x00], [0x80, 0x04]),
        5 => {
            let mut rig = Rig::closed(0);
            vec![
                Check::bytes("FF 00 20 closed", &[], &rig.feed(&[0xFF, 0x00, 0x20])),
                Check::bytes("then 70", &[0x80, 0x00], &rig.feed(&[0x70])),
            ]
        }
        6 => vec![
            Check::bytes("fifteen 00, B0", &[], &wake(15)),
            Check::bytes("sixteen 00, B0", &[0xB0], &wake(16)),
            Check::bytes("seventeen 00, B0", &[0xB0], &wake(17)),
        ],
        7 => {
            let mut wrong = Rig::open(0);
            let before = wrong.unit.srd;
            wrong.feed(&[0x20, 0xC0, 0x00, 0xD1]);
            let mut cancel = Rig::open(0);
            cancel.feed(&[0x20, 0xC0, 0x00, 0xFF]);
            vec![
                Check::bytes("SRD before", &[0x80], &[before]),
                Check::bytes("SRD after D1", &[0xB0], &[wrong.unit.srd]),
                Check::bytes("SRD after FF", &[0x80], &[cancel.unit.srd]),
            ]
        }
        8 => {
            let mut rig = Rig::open(0b0100);
            rig.feed(&[0x20, 0xC0, 0x00, 0xD0]);
            vec![Check::bytes("SRD", &[0xA0], &[rig.unit.srd])]
        }
        9 => {
            let mut rig = Rig::open(0);
            rig.set(0x02000, 0xF0);
            rig.feed(&unit_program(0x02000, &[0x0F]));
            vec![
                Check::bytes("the byte", &[0x00], &[rig.at(0x02000)]),
                Check::bytes("SRD", &[0x90], &[rig.unit.srd]),
            ]
        }
        10 => {
            let mut rig = Rig::open(0);
            let reply = rig.feed(&[0xFF, 0x30, 0x00]);
            rig.feed(&page_program(0x30, 0x00, 0x00));
            vec![
                Check::bytes("page 03000", &[0xFF; 256], &reply),
                Check::bytes("SRD after program", &[0x90], &[rig.unit.srd]),
            ]
        }
        // Data 00 fits whatever the cells hold, so SR4 tells alone whether it was permitted. 0FFFE
        // is made FF before, so that its write can be seen.
        11 => {
            let mut fits = Rig::open(0);
            fits.set(0x0FFFE, 0xFF);
            fits.feed(&unit_program(0x0FFF0, &[0x00; 0x0F]));
            let mut exceeds = Rig::open(0);
            exceeds.set(0x0FFFE, 0xFF);
            exceeds.feed(&unit_program(0x0FFF0, &[0x00; 0x10]));
            vec![
                Check::bytes("SRD after size 0F", &[0x80], &[fits.unit.srd]),
                Check::bytes("0FFFE after size 0F", &[0x00], &[fits.at(0x0FFFE)]),
                Check::bytes("0FFFF after size 0F", &[0xFF], &[fits.at(0x0FFFF)]),
                Check::bytes("SRD after size 10", &[0x90], &[exceeds.unit.srd]),
                Check::bytes("0FFFE after size 10", &[0xFF], &[exceeds.at(0x0FFFE)]),
                Check::bytes("0FFFF after size 10", &[0xFF], &[exceeds.at(0x0FFFF)]),
            ]
        }
        12 => vec![
            Check::number("20,479 bytes", 1, start(&[0xFF; 20_479], 0).0),
            Check::number("20,481 bytes", 1, start(&[0xFF; 20_481], 0).0),
            Check::number("protection 15", 0, start(&[0xFF; 20_480], 15).0),
            Check::number("protection 16", 2, start(&[0xFF; 20_480], 16).0),
        ],
        _ => Vec::new(),
    }
}

/// A closed unit gets an ID packet and then 70: no reply before the status.
fn id_session(packet: &[u8], expected: [u8; 2]) -> Vec<Check> {
    let mut rig = Rig::closed(0);
    vec![
        Check::bytes("reply to the ID packet", &[], &rig.feed(packet)),
        Check::bytes("reply to 70", &expected, &rig.feed(&[0x70])),
    ]
}

/// The replies of an asleep unit to this many zeros and B0.
fn wake(zeros: usize) -> Vec<u8> {
    let mut bytes = vec![0x00; zeros];
    bytes.push(0xB0);
    Rig::asleep(0).feed(&bytes)
}
