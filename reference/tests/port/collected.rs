//! The collected bytes: where they go, when they are cleared and when they are kept.

use crate::support::in_packet;
use reference::sessions::{page_program, unit_program, Rig};
use reference::{Command, Phase};

const STALE: [u8; 259] = [0x77; 259];
const CLEAR: [u8; 259] = [0; 259];

/// The same unit with stale collected bytes.
fn stale(mut rig: Rig) -> Rig {
    rig.unit.collected = STALE;
    rig
}

#[test]
fn a_taken_packet_of_one_byte_clears_them() {
    for b in [0x00, 0x50, 0x70, 0xFB, 0xB0, 0xB1, 0xB2, 0xB3, 0xB4] {
        let mut rig = stale(Rig::open(0));
        rig.feed(&[b]);
        assert_eq!(rig.unit.collected, CLEAR);
    }
}

#[test]
fn dropped_unknown_and_asleep_bytes_leave_them() {
    for b in [0xFF, 0x41, 0x49, 0x20, 0xA7, 0x50, 0xB5, 0x01, 0x71, 0x38] {
        let mut rig = stale(Rig::closed(0));
        rig.feed(&[b]);
        assert_eq!(rig.unit.collected, STALE);
    }
    let mut rig = stale(Rig::asleep(0));
    rig.feed(&[0x70, 0xB0, 0x00]);
    rig.feed(&[0x00; 16]);
    // The waking B0 leaves them, the second B0 is a packet.
    assert_eq!(rig.feed(&[0xB0]), [0xB0]);
    assert_eq!(rig.unit.collected, STALE);
    assert_eq!(rig.feed(&[0xB0]), [0xB0]);
    assert_eq!(rig.unit.collected, CLEAR);
}

#[test]
fn the_command_byte_of_a_longer_packet_leaves_them() {
    for b in [0xFF, 0x41, 0x49, 0x20, 0xA7, 0xF5] {
        let mut rig = stale(Rig::open(0));
        rig.feed(&[b]);
        let command = Command::from_byte(b).unwrap();
        assert_eq!(rig.unit.phase, in_packet(command, 0));
        assert_eq!(rig.unit.collected, STALE);
    }
}

#[test]
fn bytes_are_collected_from_place_0_on_without_the_command() {
    // No gap for the low byte that 41, 20 and FF do not have.
    for (command, place) in [(0xFF, 1), (0x41, 3), (0x20, 2), (0x49, 3), (0xF5, 3)] {
        let mut rig = stale(Rig::open(0));
        let given = [0x11, 0x12, 0x13];
        rig.feed(&[command]);
        rig.feed(&given[..place]);
        assert_eq!(rig.unit.collected[..place], given[..place]);
        assert_eq!(rig.unit.collected[place..], STALE[place..]);
    }
    let mut rig = Rig::open(0);
    let packet: Vec<u8> = (0..=255).chain([9, 8]).collect();
    rig.feed(&[0x41]);
    rig.feed(&packet[..257]);
    assert_eq!(rig.unit.collected[..257], packet[..257]);
    assert_eq!(rig.unit.collected[257..], [0, 0]);
}

#[test]
fn every_end_of_a_taken_packet_clears_them() {
    let packets = [
        vec![0xFF, 0x20, 0x00],
        vec![0xFF, 0x30, 0x00],
        page_program(0x20, 0x00, 0x00),
        page_program(0x30, 0x00, 0x00),
        unit_program(0x02000, &[1, 2, 3]),
        unit_program(0x02000, &[]),
        unit_program(0x02000, &[0; 255]),
        vec![0x20, 0x20, 0x00, 0xD0],
        vec![0x20, 0x20, 0x00, 0xD1],
        vec![0x20, 0x20, 0x00, 0xFF],
        vec![0xA7, 0xD0],
        vec![0xA7, 0x55],
        vec![0xA7, 0xFF],
        vec![0xF5, 0xDF, 0xFF, 0x00, 0x00],
        vec![0xF5, 0xDF, 0xFF, 0x00, 0x02, 0x31, 0x32],
    ];
    for packet in packets {
        // Also where a standing error makes the packet do nothing.
        for srd in [0x80, 0xB0] {
            let mut rig = stale(Rig::open(0));
            rig.unit.srd = srd;
            rig.feed(&packet);
            assert_eq!(rig.unit.phase, Phase::AtCommand);
            assert_eq!(rig.unit.collected, CLEAR);
        }
    }
}

#[test]
fn a_stale_fourth_byte_has_no_meaning_before_the_size_byte() {
    for stale in [0, 1, 255] {
        let mut rig = Rig::open(0);
        rig.unit.collected[3] = stale;
        rig.feed(&[0x49, 0x00, 0x20, 0x00]);
        rig.feed(&[0x01]);
        assert_eq!(rig.unit.phase, in_packet(Command::UnitProgram, 4));
        rig.feed(&[0x5A]);
        assert_eq!((rig.at(0x02000), rig.unit.srd), (0x5A, 0x80));
    }
}

#[test]
fn a_hand_made_packet_in_progress_goes_on_with_what_it_collected() {
    let mut rig = stale(Rig::open(0));
    rig.unit.phase = in_packet(Command::UnitProgram, 6);
    rig.unit.collected[..6].copy_from_slice(&[0xFE, 0x27, 0x00, 0x03, 0x01, 0x02]);
    rig.feed(&[0x04]);
    let cells = [rig.at(0x027FE), rig.at(0x027FF), rig.at(0x02800)];
    assert_eq!(cells, [0x01, 0x02, 0x04]);
    assert_eq!(rig.at(0x02801), 0xFF);
    assert_eq!(rig.unit.collected, CLEAR);
}
