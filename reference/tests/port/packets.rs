//! The packet table: who takes what, how long a packet is, and when it acts.

use crate::support::in_packet;
use reference::sessions::{page_program, unit_program, Rig};
use reference::{Command, Phase};

#[test]
fn one_byte_replies() {
    for mut rig in [Rig::closed(0), Rig::open(0)] {
        assert_eq!(rig.feed(&[0x70]), [rig.unit.srd, rig.unit.srd1]);
        assert_eq!(
            rig.feed(&[0xFB]),
            [0x56, 0x45, 0x52, 0x2E, 0x32, 0x2E, 0x30, 0x30]
        );
        for rate in [4, 0, 3, 1, 2] {
            assert_eq!(rig.feed(&[0xB0 + rate]), [0xB0 + rate]);
            assert_eq!(rig.unit.rate, rate);
        }
        assert_eq!(rig.feed(&[0x00]), []);
        assert_eq!(rig.unit.phase, Phase::AtCommand);
    }
}

#[test]
fn every_byte_at_a_command_of_a_closed_unit() {
    for b in 0..=0xFF {
        let mut rig = Rig::closed(0);
        rig.unit.srd = 0xB0;
        rig.unit.rate = 2;
        rig.unit.mismatches = 2;
        rig.unit.collected = [9; 259];
        let mut expected = rig.unit.clone();
        let reply = rig.feed(&[b]);
        let taken = matches!(b, 0x00 | 0x70 | 0xFB | 0xB0..=0xB4);
        if taken {
            expected.collected = [0; 259];
        }
        match b {
            0xF5 => expected.phase = in_packet(Command::IdCheck, 0),
            0xB0..=0xB4 => expected.rate = b - 0xB0,
            _ => {}
        }
        assert_eq!(rig.unit, expected, "byte {b:02X}");
        let len = match b {
            0x70 => 2,
            0xFB => 8,
            0xB0..=0xB4 => 1,
            _ => 0,
        };
        assert_eq!(reply.len(), len, "byte {b:02X}");
    }
}

#[test]
fn every_byte_at_a_command_of_an_open_unit() {
    for b in 0..=0xFF {
        let mut rig = Rig::open(0);
        rig.unit.srd = 0xB0;
        rig.unit.mismatches = 2;
        rig.unit.collected = [9; 259];
        let mut expected = rig.unit.clone();
        rig.feed(&[b]);
        match b {
            0xFF | 0x41 | 0x49 | 0x20 | 0xA7 | 0xF5 => {
                expected.phase = in_packet(Command::from_byte(b).unwrap(), 0);
            }
            0x50 => {
                expected.srd = 0x80;
                expected.collected = [0; 259];
            }
            0x00 | 0x70 | 0xFB => expected.collected = [0; 259],
            0xB0..=0xB4 => {
                expected.rate = b - 0xB0;
                expected.collected = [0; 259];
            }
            _ => {}
        }
        assert_eq!(rig.unit, expected, "byte {b:02X}");
    }
}

#[test]
fn b5_is_one_unknown_byte() {
    let mut rig = Rig::open(0);
    assert_eq!(rig.feed(&[0xB5]), []);
    assert_eq!(rig.unit.rate, 0);
    // What would be its data is a command.
    assert_eq!(rig.feed(&[0xB3]), [0xB3]);
}

#[test]
fn a_closed_page_program_is_read_as_commands() {
    let mut rig = Rig::closed(0);
    let before = rig.image.clone();
    let replies = rig.feed(&page_program(0x20, 0x00, 0x70));
    assert_eq!(replies, [0x80, 0x00].repeat(256));
    assert_eq!(rig.image, before);
}

#[test]
fn no_one_byte_command_acts_inside_a_packet() {
    let mut rig = Rig::closed(0);
    assert_eq!(rig.feed(&[0xF5, 0x70, 0xFB, 0xB3, 0x02, 0x70]), []);
    assert_eq!(rig.unit.rate, 0);
    assert_eq!(rig.feed(&[0x70]), []);
    assert_eq!(rig.feed(&[0x70]), [0x80, 0x04]);
}

#[test]
fn status_is_read_and_cleared_only_by_50() {
    let mut rig = Rig::open(0);
    rig.unit.srd = 0xB0;
    assert_eq!(rig.feed(&[0x70]), [0xB0, 0x0C]);
    assert_eq!(rig.feed(&[0x70]), [0xB0, 0x0C]);
    assert_eq!(rig.feed(&[0x50, 0x70]), [0x80, 0x0C]);
    // Closed, 50 is dropped and the bits stand.
    let mut rig = Rig::closed(0);
    rig.unit.srd = 0xA0;
    assert_eq!(rig.feed(&[0x50, 0x70]), [0xA0, 0x00]);
}

#[test]
fn page_read_ignores_protection_and_error_bits() {
    let mut rig = Rig::open(15);
    rig.unit.srd = 0xB0;
    let mut expected = [0xFF; 256];
    let id_offsets = [0xDF, 0xE3, 0xEB, 0xEF, 0xF3, 0xF7, 0xFB];
    for (offset, byte) in id_offsets.into_iter().zip(0x31..=0x37) {
        expected[offset] = byte;
    }
    expected[0xFC..=0xFE].copy_from_slice(&[0x00, 0xC0, 0x00]);
    assert_eq!(rig.feed(&[0xFF, 0xFF, 0x00]), expected);
    assert_eq!(rig.unit.srd, 0xB0);
}

#[test]
fn a_packet_acts_at_its_last_byte_only() {
    let packets = [
        page_program(0x20, 0x00, 0x00),
        unit_program(0x02000, &[0; 255]),
        unit_program(0x02000, &[]),
        vec![0x20, 0xFF, 0x00, 0xD0],
        vec![0x20, 0xFF, 0x00, 0xD1],
        vec![0xA7, 0xD0],
    ];
    for packet in packets {
        let mut rig = Rig::open(0);
        let image = rig.image.clone();
        let (last, before) = packet.split_last().unwrap();
        for b in before {
            assert_eq!(rig.feed(&[*b]), []);
            assert_eq!(rig.image, image);
            assert_eq!((rig.unit.srd, rig.unit.srd1), (0x80, 0x0C));
            assert_ne!(rig.unit.phase, Phase::AtCommand);
        }
        rig.feed(&[*last]);
        assert_eq!(rig.unit.phase, Phase::AtCommand);
        assert!(rig.image != image || rig.unit.srd != 0x80);
    }
}

#[test]
fn a_size_of_0_ends_at_the_size_byte_and_is_a_program_error() {
    let mut rig = Rig::open(0);
    let before = rig.image.clone();
    rig.feed(&[0x49, 0x00, 0x20, 0x00, 0x00]);
    assert_eq!(rig.unit.phase, Phase::AtCommand);
    assert_eq!(rig.feed(&[0x70]), [0x90, 0x0C]);
    assert_eq!(rig.image, before);
}

#[test]
fn a_size_of_255_takes_255_data_bytes() {
    let mut rig = Rig::open(0);
    let data: Vec<u8> = (0..255).collect();
    rig.feed(&unit_program(0x027F0, &data)[..259]);
    assert_eq!(rig.unit.phase, in_packet(Command::UnitProgram, 258));
    assert_eq!(rig.at(0x027F0), 0xFF);
    rig.feed(&[254]);
    assert_eq!(rig.unit.phase, Phase::AtCommand);
    assert_eq!(rig.unit.srd, 0x80);
    for (address, byte) in (0x027F0..).zip(data) {
        assert_eq!(rig.at(address), byte);
    }
    // The ID check of size 255, likewise.
    rig.feed(&[0xF5, 0xDF, 0xFF, 0x00, 0xFF]);
    assert_eq!(rig.feed(&[0x70; 255]), []);
    assert_eq!(rig.feed(&[0x70]), [0x80, 0x04]);
}

#[test]
fn from_any_awake_state_259_bytes_reach_a_command() {
    // The longest way: just after 49 or F5, size 255.
    for command in [0x49, 0xF5] {
        let mut rig = Rig::open(0);
        rig.feed(&[command]);
        for _ in 0..258 {
            rig.feed(&[0xFF]);
            assert_ne!(rig.unit.phase, Phase::AtCommand);
        }
        rig.feed(&[0xFF]);
        assert_eq!(rig.unit.phase, Phase::AtCommand);
    }
}
