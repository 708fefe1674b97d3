//! What several of these files build on; its values are typed from the documents like the tests'
//! own.

use reference::batch::Stop;
use reference::plan::{plan, Clock};
use reference::sessions::Rig;
use reference::{Command, Phase};
use std::ops::Range;

/// The right ID packet.
pub const ID_PACKET: [u8; 12] = [
    0xF5, 0xDF, 0xFF, 0x00, 0x07, 0x31, 0x32, 0x33, 0x34, 0x35, 0x36, 0x37,
];

/// An ID packet that is wrong by its size, and short.
pub const WRONG_ID_PACKET: [u8; 5] = [0xF5, 0xDF, 0xFF, 0x00, 0x00];

/// Where the seven ID bytes are stored.
pub const ID_ADDRESSES: [u32; 7] = [
    0x0FFDF, 0x0FFE3, 0x0FFEB, 0x0FFEF, 0x0FFF3, 0x0FFF7, 0x0FFFB,
];

/// Image offsets of blocks 0 to 3.
pub const CELLS: [Range<usize>; 4] = [0..2048, 2048..4096, 4096..12_288, 12_288..20_480];

/// The rates that a plan may be asked for.
pub const RATES: [u32; 5] = [9600, 19_200, 38_400, 57_600, 115_200];

/// The bench's text for the sessions' image and `woken(&[0x70, 0xFB])`.
pub const WORKED_EXAMPLE: &str = "17: B0\n18: 80 00\n19: 56 45 52 2E 32 2E 30 30\nend 80 00\n";

/// Records of the format of plans: 8 MHz for 9600 (its frequency, a NaN, is not looked at);
/// 7.3728 MHz for 57600; 2,457,600 Hz for 115200; a clock under the lower bound with a rate that is
/// not listed; 8,000,000 Hz for rate 0.
pub const PLAN_RECORDS: [[u8; 13]; 5] = [
    [
        0, 0xFF, 0xFF, 0xFF, 0xFF, 0xFF, 0xFF, 0xFF, 0xFF, 0x80, 0x25, 0x00, 0x00,
    ],
    [1, 0, 0, 0, 0, 0, 0, 0, 0, 0x00, 0xE1, 0x00, 0x00],
    [2, 0, 0, 0, 0, 0, 0xC0, 0x42, 0x41, 0x00, 0xC2, 0x01, 0x00],
    [
        2, 0xFF, 0xFF, 0xFF, 0xFF, 0x7F, 0x84, 0x3E, 0x41, 0xFF, 0xFF, 0xFF, 0xFF,
    ],
    [
        2, 0, 0, 0, 0, 0x80, 0x84, 0x5E, 0x41, 0x00, 0x00, 0x00, 0x00,
    ],
];

/// Their answers: 125,000/13 and its distance, an exact hit, 153,600 and 38,400, refusals 9 and 10.
pub const PLAN_ANSWERS: [[u8; 18]; 5] = [
    [
        0, 51, 0x3B, 0xB1, 0x13, 0x3B, 0xB1, 0xC7, 0xC2, 0x40, 0x00, 0xEC, 0xC4, 0x4E, 0xEC, 0xC4,
        0x2E, 0x40,
    ],
    [
        0, 7, 0, 0, 0, 0, 0, 0x20, 0xEC, 0x40, 0, 0, 0, 0, 0, 0, 0, 0,
    ],
    [
        0, 0, 0, 0, 0, 0, 0, 0xC0, 0x02, 0x41, 0, 0, 0, 0, 0, 0xC0, 0xE2, 0x40,
    ],
    [9, 0, 0, 0, 0, 0, 0, 0, 0, 0, 0, 0, 0, 0, 0, 0, 0, 0],
    [10, 0, 0, 0, 0, 0, 0, 0, 0, 0, 0, 0, 0, 0, 0, 0, 0, 0],
];

pub fn is_protected(protection: u8, block: usize) -> bool {
    protection & (1 << block) != 0
}

pub fn all_are(byte: u8, cells: &[u8]) -> bool {
    cells.iter().all(|&cell| cell == byte)
}

/// An image of 00 that is blank all the same, by FF in the three bytes that decide it.
pub fn barely_blank() -> Vec<u8> {
    let mut image = vec![0x00; 20_480];
    image[20_476..=20_478].fill(0xFF);
    image
}

/// An open unit on an image that holds this byte everywhere.
pub fn open_over(byte: u8, protection: u8) -> Rig {
    let mut rig = Rig::open(protection);
    rig.image.fill(byte);
    rig
}

pub fn in_packet(command: Command, received: u16) -> Phase {
    Phase::InPacket { command, received }
}

/// Sixteen 00, B0 and these bytes.
pub fn woken(bytes: &[u8]) -> Vec<u8> {
    [&[0x00; 16][..], &[0xB0], bytes].concat()
}

/// SRD and SRD1 after these bytes, which must have no reply; 70 must tell the same.
#[track_caller]
pub fn status_after(rig: &mut Rig, bytes: &[u8]) -> [u8; 2] {
    assert_eq!(rig.feed(bytes), []);
    let status = [rig.unit.srd, rig.unit.srd1];
    assert_eq!(rig.feed(&[0x70]), status);
    status
}

/// A case's body with its length before it.
pub fn framed(body: &[u8]) -> Vec<u8> {
    [&(body.len() as u32).to_le_bytes()[..], body].concat()
}

/// A plan's answer bit for bit: refusal, divider, reached rate, distance.
pub fn plan_bits(clock: Clock, wanted: u32) -> (u8, u8, u64, u64) {
    let (refusal, plan) = plan(clock, wanted);
    (
        refusal,
        plan.divider,
        plan.reached.to_bits(),
        plan.distance.to_bits(),
    )
}

/// Divider, reached rate and distance of a plan that must not be refused.
#[track_caller]
pub fn made_plan(clock: Clock, wanted: u32) -> (u8, u64, u64) {
    let (refusal, divider, reached, distance) = plan_bits(clock, wanted);
    assert_eq!(refusal, 0);
    (divider, reached, distance)
}

/// A small generator (xorshift), the same numbers every time.
pub struct Numbers(pub u64);

impl Numbers {
    pub fn next(&mut self, below: u64) -> u64 {
        self.0 ^= self.0 << 13;
        self.0 ^= self.0 >> 7;
        self.0 ^= self.0 << 17;
        self.0 % below
    }
}

/// What is written for a batch, and the number of its case or record that is not well formed.
pub fn answered(
    answer: impl FnOnce(&mut &[u8], &mut Vec<u8>) -> Result<(), Stop>,
    mut batch: &[u8],
) -> (Vec<u8>, Option<u64>) {
    let mut output = Vec::new();
    match answer(&mut batch, &mut output) {
        Ok(()) => (output, None),
        Err(Stop::Malformed(number)) => (output, Some(number)),
        Err(Stop::Io(error)) => panic!("{error}"),
    }
}
