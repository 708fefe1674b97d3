//! The unit record of the case format: 268 bytes.

use crate::unit::{Command, Phase, Unit, COLLECTED_LEN};

pub const RECORD_LEN: usize = 268;
pub type Record = [u8; RECORD_LEN];

const ASLEEP: u8 = 0x00;
const AT_COMMAND: u8 = 0x01;
/// The fields before the collected bytes.
const HEAD_LEN: usize = RECORD_LEN - COLLECTED_LEN;

pub fn encode(unit: &Unit) -> Record {
    let (tag, count) = match unit.phase {
        Phase::Asleep { zeros } => (ASLEEP, zeros),
        Phase::AtCommand => (AT_COMMAND, 0),
        Phase::InPacket { command, received } => (command.byte(), received),
    };
    let [low, high] = count.to_le_bytes();
    let mut record = [0; RECORD_LEN];
    record[..HEAD_LEN].copy_from_slice(&[
        tag,
        low,
        high,
        unit.srd,
        unit.srd1,
        u8::from(unit.blank),
        unit.protection,
        unit.rate,
        unit.mismatches,
    ]);
    record[HEAD_LEN..].copy_from_slice(&unit.collected);
    record
}

/// The unit of a record, in range or not; none for a record that no unit has (an unknown tag, a
/// count at a command, a blank byte over 1).
pub fn decode(record: &Record) -> Option<Unit> {
    let [tag, low, high, srd, srd1, blank, protection, rate, mismatches, collected @ ..] = *record;
    let count = u16::from_le_bytes([low, high]);
    let phase = match tag {
        ASLEEP => Phase::Asleep { zeros: count },
        AT_COMMAND if count == 0 => Phase::AtCommand,
        _ => Phase::InPacket {
            command: Command::from_byte(tag)?,
            received: count,
        },
    };
    let blank = match blank {
        0 => false,
        1 => true,
        _ => return None,
    };
    Some(Unit {
        phase,
        srd,
        srd1,
        blank,
        protection,
        rate,
        mismatches,
        collected,
    })
}
