//! The calls: start, one byte, a run of bytes.

use crate::flash::{self, Image, PAGE_LEN};
use crate::unit::{srd, srd1, Command, Phase, Unit, MISMATCHES_MAX, WAKE_ZEROS};
use std::ops::Range;

/// Reply area that every byte must find, whatever it replies: the longest reply, a page.
pub const REPLY_ROOM: usize = PAGE_LEN;
type Reply = [u8; REPLY_ROOM];

const VERSION: &[u8; 8] = b"VER.2.00";
const CONFIRM: u8 = 0xD0;
const CANCEL: u8 = 0xFF;

/// The refusals' numbers.
pub const IMAGE_SIZE: u8 = 1;
pub const PROTECTION: u8 = 2;
pub const AREA_SIZE: u8 = 3;
pub const UNIT_RANGE: u8 = 4;

/// What a byte or a run answers. `refusal` 0 means none; else nothing was taken or replied, and
/// everything lent is unchanged.
#[derive(Clone, Copy, Debug, Default, PartialEq, Eq)]
pub struct Answer {
    pub refusal: u8,
    /// Bytes taken.
    pub taken: usize,
    /// Length of the reply at the front of the area.
    pub reply_len: usize,
}

impl Answer {
    /// The answer of a refused call.
    pub const fn refused(refusal: u8) -> Answer {
        Answer {
            refusal,
            taken: 0,
            reply_len: 0,
        }
    }
}

/// Starts a unit: refusal number and unit, the fresh one or (refused) the idle one.
pub fn start(image: &[u8], protection: u8) -> (u8, Unit) {
    let Ok(image) = <&Image>::try_from(image) else {
        return (IMAGE_SIZE, Unit::idle());
    };
    if protection > 15 {
        return (PROTECTION, Unit::idle());
    }
    (0, Unit::fresh(image, protection))
}

/// Gives the unit one byte.
pub fn byte(unit: &mut Unit, image: &mut [u8], area: &mut [u8], b: u8) -> Answer {
    let Ok(image) = <&mut Image>::try_from(image) else {
        return Answer::refused(IMAGE_SIZE);
    };
    let Some(reply) = area.first_chunk_mut() else {
        return Answer::refused(AREA_SIZE);
    };
    if !unit.in_range() {
        return Answer::refused(UNIT_RANGE);
    }
    Answer {
        refusal: 0,
        taken: 1,
        reply_len: step(unit, image, reply, b),
    }
}

/// Gives the unit a run of bytes, replies joined. It stops at the end of the run, or before a byte
/// that finds too little reply area left; that is no refusal.
pub fn run(unit: &mut Unit, image: &mut [u8], bytes: &[u8], area: &mut [u8]) -> Answer {
    let Ok(image) = <&mut Image>::try_from(image) else {
        return Answer::refused(IMAGE_SIZE);
    };
    if area.len() < REPLY_ROOM {
        return Answer::refused(AREA_SIZE);
    }
    if !unit.in_range() {
        return Answer::refused(UNIT_RANGE);
    }
    let mut answer = Answer::default();
    for &b in bytes {
        let Some(reply) = area[answer.reply_len..].first_chunk_mut() else {
            break;
        };
        answer.reply_len += step(unit, image, reply, b);
        answer.taken += 1;
    }
    answer
}

/// One byte for a unit in range: changes unit and image, gives the reply's length.
#[inline(always)]
fn step(unit: &mut Unit, image: &mut Image, reply: &mut Reply, b: u8) -> usize {
    match unit.phase {
        Phase::Asleep { zeros } => asleep(unit, reply, zeros, b),
        Phase::AtCommand => at_command(unit, reply, b),
        Phase::InPacket { command, received } => {
            unit.collected[usize::from(received)] = b;
            let received = received + 1;
            if command.wants_more(received, &unit.collected) {
                unit.phase = Phase::InPacket { command, received };
                0
            } else {
                let reply_len = act(unit, image, reply, command);
                unit.phase = Phase::AtCommand;
                unit.collected.fill(0);
                reply_len
            }
        }
    }
}

fn asleep(unit: &mut Unit, reply: &mut Reply, zeros: u16, b: u8) -> usize {
    match b {
        0x00 => {
            let zeros = WAKE_ZEROS.min(zeros + 1);
            unit.phase = Phase::Asleep { zeros };
            0
        }
        0xB0 if zeros == WAKE_ZEROS => {
            unit.phase = Phase::AtCommand;
            put(reply, &[b])
        }
        _ => {
            unit.phase = Phase::Asleep { zeros: 0 };
            0
        }
    }
}

/// A byte at a command position: it begins a packet, is a packet of its own, or does nothing.
fn at_command(unit: &mut Unit, reply: &mut Reply, b: u8) -> usize {
    if let Some(command) = Command::from_byte(b) {
        if unit.is_open() || !command.needs_open() {
            unit.phase = Phase::InPacket {
                command,
                received: 0,
            };
        }
        return 0;
    }
    let reply_len = match b {
        0x00 => 0,
        0x50 if unit.is_open() => {
            unit.srd = srd::READY;
            0
        }
        0x70 => put(reply, &[unit.srd, unit.srd1]),
        0xFB => put(reply, VERSION),
        0xB0..=0xB4 => {
            unit.rate = b - 0xB0;
            put(reply, &[b])
        }
        // Dropped or unknown: not a taken packet, so the collected bytes stay.
        _ => return 0,
    };
    unit.collected.fill(0);
    reply_len
}

/// What a packet does at its last byte, all its bytes being collected.
fn act(unit: &mut Unit, image: &mut Image, reply: &mut Reply, command: Command) -> usize {
    let [c0, c1, c2, c3, ..] = unit.collected;
    match command {
        Command::PageRead => return read_page(image, reply, c0, c1),
        Command::PageProgram => {
            let (address, data) = (flash::address(0, c0, c1), 2..2 + PAGE_LEN);
            program(unit, image, address, data, flash::PAGE_PROGRAM_END);
        }
        Command::UnitProgram => {
            let (address, data) = (flash::address(c0, c1, c2), 4..4 + usize::from(c3));
            program(unit, image, address, data, flash::UNIT_PROGRAM_END);
        }
        Command::BlockErase => {
            if erase_goes_on(unit, c2)
                && !flash::erase_block(image, unit.protection, flash::address(0, c0, c1))
            {
                unit.srd |= srd::ERASE_ERROR;
            }
        }
        Command::EraseAll => {
            if erase_goes_on(unit, c0) {
                flash::erase_all(image, unit.protection);
            }
        }
        Command::IdCheck => {
            let (address, given) = (flash::address(c0, c1, c2), 4..4 + usize::from(c3));
            check_id(unit, image, address, given);
        }
    }
    0
}

fn read_page(image: &Image, reply: &mut Reply, mid: u8, high: u8) -> usize {
    match <&Reply>::try_from(flash::page(image, mid, high)) {
        Ok(page) => *reply = *page,
        Err(_) => reply.fill(0xFF),
    }
    PAGE_LEN
}

/// Programs the data at these collected places, unless an error bit stands.
fn program(unit: &mut Unit, image: &mut Image, address: u32, data: Range<usize>, bank_end: u32) {
    if unit.has_error() {
        return;
    }
    let data = &unit.collected[data];
    if !flash::program(image, unit.protection, address, data, bank_end) {
        unit.srd |= srd::PROGRAM_ERROR;
    }
}

/// Whether an erase with this confirm byte is to be carried out. A wrong one sets both error bits,
/// unless one stands already.
fn erase_goes_on(unit: &mut Unit, confirm: u8) -> bool {
    if confirm == CANCEL || unit.has_error() {
        return false;
    }
    if confirm != CONFIRM {
        unit.srd |= srd::PROGRAM_ERROR | srd::ERASE_ERROR;
        return false;
    }
    true
}

/// Opens or closes a unit that did not start blank, by the ID given at these collected places, and
/// counts a wrong one.
fn check_id(unit: &mut Unit, image: &Image, address: u32, given: Range<usize>) {
    if unit.blank {
        return;
    }
    let right = address == flash::ID_ADDRESS && flash::is_id(image, &unit.collected[given]);
    if !right {
        unit.mismatches = MISMATCHES_MAX.min(unit.mismatches + 1);
    }
    unit.srd1 = if right && !unit.is_locked() {
        srd1::MATCH
    } else {
        srd1::MISMATCH
    };
}

/// Writes a short reply to the front of the area.
fn put(reply: &mut Reply, bytes: &[u8]) -> usize {
    reply[..bytes.len()].copy_from_slice(bytes);
    bytes.len()
}
