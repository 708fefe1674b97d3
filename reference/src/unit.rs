//! The unit: its fields, the fresh and the idle one, and which records are in range.

use crate::flash::{self, Image};

/// Status register SRD: ready, with or without the two error bits.
pub mod srd {
    pub const READY: u8 = 0x80;
    /// SR5.
    pub const ERASE_ERROR: u8 = 0x20;
    /// SR4.
    pub const PROGRAM_ERROR: u8 = 0x10;
}

/// Status register SRD1: the state of the ID check.
pub mod srd1 {
    pub const NOT_CHECKED: u8 = 0x00;
    pub const MISMATCH: u8 = 0x04;
    pub const MATCH: u8 = 0x0C;
}

/// Zeros that an asleep unit counts before B0 wakes it.
pub const WAKE_ZEROS: u16 = 16;

/// Wrong ID checks that are counted; after so many no ID packet opens the unit.
pub const MISMATCHES_MAX: u8 = 3;

pub const COLLECTED_LEN: usize = 259;
pub type Collected = [u8; COLLECTED_LEN];

/// The commands whose packets have more than the command byte.
#[derive(Clone, Copy, Debug, PartialEq, Eq)]
pub enum Command {
    PageRead,
    PageProgram,
    UnitProgram,
    BlockErase,
    EraseAll,
    IdCheck,
}

impl Command {
    pub const fn from_byte(byte: u8) -> Option<Command> {
        match byte {
            0xFF => Some(Command::PageRead),
            0x41 => Some(Command::PageProgram),
            0x49 => Some(Command::UnitProgram),
            0x20 => Some(Command::BlockErase),
            0xA7 => Some(Command::EraseAll),
            0xF5 => Some(Command::IdCheck),
            _ => None,
        }
    }

    pub const fn byte(self) -> u8 {
        match self {
            Command::PageRead => 0xFF,
            Command::PageProgram => 0x41,
            Command::UnitProgram => 0x49,
            Command::BlockErase => 0x20,
            Command::EraseAll => 0xA7,
            Command::IdCheck => 0xF5,
        }
    }

    /// Whether only an open unit takes the packet.
    pub const fn needs_open(self) -> bool {
        !matches!(self, Command::IdCheck)
    }

    /// Whether `received` bytes after the command byte are fewer than the packet has.
    pub const fn wants_more(self, received: u16, collected: &Collected) -> bool {
        let total = match self {
            Command::PageRead => 2,
            Command::PageProgram => 258,
            Command::BlockErase => 3,
            Command::EraseAll => 1,
            // Before the size byte has come the fourth collected byte is stale, and does no harm:
            // fewer than 4 are fewer than any total.
            Command::UnitProgram | Command::IdCheck => 4 + collected[3] as u16,
        };
        received < total
    }
}

#[derive(Clone, Copy, Debug, PartialEq, Eq)]
pub enum Phase {
    /// Asleep, with the count of zeros.
    Asleep { zeros: u16 },
    /// Awake, the next byte is a command byte.
    AtCommand,
    /// Awake inside a packet, with the bytes received since its command byte.
    InPacket { command: Command, received: u16 },
}

#[derive(Clone, Debug, PartialEq, Eq)]
pub struct Unit {
    pub phase: Phase,
    pub srd: u8,
    pub srd1: u8,
    /// Whether the image was blank at start.
    pub blank: bool,
    /// Bit i set: block i is protected.
    pub protection: u8,
    pub rate: u8,
    /// Wrong ID checks since start, at most [`MISMATCHES_MAX`].
    pub mismatches: u8,
    pub collected: Collected,
}

impl Unit {
    /// The unit that every start on this image with this protection gives.
    pub fn fresh(image: &Image, protection: u8) -> Unit {
        let mut unit = Unit::idle();
        unit.protection = protection;
        if flash::is_blank(image) {
            unit.blank = true;
            unit.srd1 = srd1::MATCH;
        }
        unit
    }

    /// The fresh unit of an image that is not blank, with protection 0.
    pub const fn idle() -> Unit {
        Unit {
            phase: Phase::Asleep { zeros: 0 },
            srd: srd::READY,
            srd1: srd1::NOT_CHECKED,
            blank: false,
            protection: 0,
            rate: 0,
            mismatches: 0,
            collected: [0; COLLECTED_LEN],
        }
    }

    pub const fn is_open(&self) -> bool {
        self.srd1 == srd1::MATCH
    }

    /// Whether no ID packet can open the unit any more. It need not be closed: a hand-made one is
    /// open until its next ID packet.
    pub const fn is_locked(&self) -> bool {
        self.mismatches == MISMATCHES_MAX
    }

    /// Whether SR4 or SR5 stands.
    pub const fn has_error(&self) -> bool {
        self.srd & (srd::ERASE_ERROR | srd::PROGRAM_ERROR) != 0
    }

    /// Whether the record is in range; refusal 4 is given where it is not.
    pub fn in_range(&self) -> bool {
        let phase = match self.phase {
            Phase::Asleep { zeros } => zeros <= WAKE_ZEROS,
            Phase::AtCommand => true,
            Phase::InPacket { command, received } => {
                (self.is_open() || !command.needs_open())
                    && command.wants_more(received, &self.collected)
            }
        };
        phase
            && self.srd & !(srd::ERASE_ERROR | srd::PROGRAM_ERROR) == srd::READY
            && matches!(self.srd1, srd1::NOT_CHECKED | srd1::MISMATCH | srd1::MATCH)
            && (!self.blank || self.is_open() && self.mismatches == 0)
            && self.protection <= 15
            && self.rate <= 4
            && self.mismatches <= MISMATCHES_MAX
    }
}
