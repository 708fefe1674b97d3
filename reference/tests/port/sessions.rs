//! The twelve sessions, typed a second time and more closely than in the library.

use crate::support::{in_packet, open_over, status_after};
use reference::sessions::{line, page_program, play, unit_program, Check, Rig, COUNT};
use reference::{byte, run, start, Command, Phase, Unit};

#[test]
fn session_1_right_id() {
    let mut rig = Rig::closed(0);
    assert_eq!(rig.feed(&[0xF5, 0xDF, 0xFF, 0x00, 0x07]), []);
    assert_eq!(rig.feed(&[0x31, 0x32, 0x33, 0x34, 0x35, 0x36]), []);
    assert_eq!(rig.unit.srd1, 0x00);
    assert_eq!(rig.feed(&[0x37]), []);
    assert_eq!(rig.unit.srd1, 0x0C);
    assert_eq!(rig.feed(&[0x70]), [0x80, 0x0C]);
}

#[test]
fn session_2_last_id_byte_wrong() {
    let packet = [
        0xF5, 0xDF, 0xFF, 0x00, 0x07, 0x31, 0x32, 0x33, 0x34, 0x35, 0x36, 0x38,
    ];
    assert_eq!(status_after(&mut Rig::closed(0), &packet), [0x80, 0x04]);
}

#[test]
fn session_3_wrong_address_or_size() {
    let packet = [
        0xF5, 0xDE, 0xFF, 0x00, 0x07, 0x31, 0x32, 0x33, 0x34, 0x35, 0x36, 0x37,
    ];
    assert_eq!(status_after(&mut Rig::closed(0), &packet), [0x80, 0x04]);
    let packet = [
        0xF5, 0xDF, 0xFF, 0x00, 0x06, 0x31, 0x32, 0x33, 0x34, 0x35, 0x36,
    ];
    assert_eq!(status_after(&mut Rig::closed(0), &packet), [0x80, 0x04]);
}

#[test]
fn session_4_size_0_ends_at_the_fifth_byte() {
    let mut rig = Rig::closed(0);
    rig.feed(&[0xF5, 0xDF, 0xFF, 0x00]);
    assert_eq!(rig.unit.phase, in_packet(Command::IdCheck, 3));
    assert_eq!(rig.unit.srd1, 0x00);
    rig.feed(&[0x00]);
    assert_eq!(rig.unit.phase, Phase::AtCommand);
    assert_eq!(rig.feed(&[0x70]), [0x80, 0x04]);
}

#[test]
fn session_5_closed_page_read_is_dropped() {
    let mut rig = Rig::closed(0);
    assert_eq!(rig.feed(&[0xFF]), []);
    assert_eq!(rig.feed(&[0x00]), []);
    assert_eq!(rig.feed(&[0x20]), []);
    assert_eq!(rig.feed(&[0x70]), [0x80, 0x00]);
}

#[test]
fn session_6_waking() {
    assert_eq!(Rig::asleep(0).feed(&[&[0; 15][..], &[0xB0]].concat()), []);
    for zeros in [16, 17] {
        let bytes = [&vec![0; zeros][..], &[0xB0]].concat();
        assert_eq!(Rig::asleep(0).feed(&bytes), [0xB0]);
    }
}

#[test]
fn session_7_erase_confirm() {
    for (confirm, srd) in [(0xD1, 0xB0), (0xFF, 0x80)] {
        let mut rig = Rig::open(0);
        let before = rig.image.clone();
        assert_eq!(rig.unit.srd, 0x80);
        let packet = [0x20, 0xC0, 0x00, confirm];
        assert_eq!(status_after(&mut rig, &packet), [srd, 0x0C]);
        assert_eq!(rig.image, before);
    }
}

#[test]
fn session_8_protected_block() {
    let mut rig = Rig::open(4);
    rig.set(0x0C000, 0x12);
    assert_eq!(rig.feed(&[0x20, 0xC0, 0x00, 0xD0, 0x70]), [0xA0, 0x0C]);
    assert_eq!(rig.at(0x0C000), 0x12);
}

#[test]
fn session_9_bits_only_fall() {
    let mut rig = Rig::open(0);
    rig.set(0x02345, 0xF0);
    let packet = unit_program(0x02345, &[0x0F]);
    assert_eq!(status_after(&mut rig, &packet), [0x90, 0x0C]);
    assert_eq!(rig.at(0x02345), 0x00);
    // The same by a page program: one byte of 256 does not hold.
    let mut rig = Rig::open(0);
    rig.set(0x02345, 0xF0);
    let packet = page_program(0x23, 0x00, 0x0F);
    assert_eq!(status_after(&mut rig, &packet), [0x90, 0x0C]);
    assert_eq!(rig.at(0x02345), 0x00);
    assert_eq!(rig.at(0x02344), 0x0F);
    assert_eq!(rig.at(0x023FF), 0x0F);
}

#[test]
fn session_10_outside_page() {
    let mut rig = open_over(0x11, 0);
    assert_eq!(rig.feed(&[0xFF, 0x30, 0x00]), [0xFF; 256]);
    assert_eq!(rig.unit.srd, 0x80);
    let packet = page_program(0x30, 0x00, 0xFF);
    assert_eq!(status_after(&mut rig, &packet), [0x90, 0x0C]);
    assert_eq!(rig.image, [0x11; 20_480]);
}

#[test]
fn session_11_end_of_the_bank() {
    let mut rig = Rig::open(0);
    rig.set(0x0FFFE, 0xFF);
    let packet = unit_program(0x0FFF0, &[0; 0x0F]);
    assert_eq!(status_after(&mut rig, &packet), [0x80, 0x0C]);
    assert!((0x0FFF0..=0x0FFFE).all(|address| rig.at(address) == 0));
    assert_eq!((rig.at(0x0FFEF), rig.at(0x0FFFF)), (0x34, 0xFF));
    let mut rig = Rig::open(0);
    let before = rig.image.clone();
    let packet = unit_program(0x0FFF0, &[0; 0x10]);
    assert_eq!(status_after(&mut rig, &packet), [0x90, 0x0C]);
    assert_eq!(rig.image, before);
}

#[test]
fn session_12_sizes_and_protection() {
    for len in [20_479, 20_481] {
        let mut image = vec![0xFF; len];
        assert_eq!(start(&image, 0), (1, Unit::idle()));
        let mut unit = Unit::idle();
        let mut area = [0; 256];
        assert_eq!(byte(&mut unit, &mut image, &mut area, 0).refusal, 1);
        assert_eq!(run(&mut unit, &mut image, &[0], &mut area).refusal, 1);
    }
    assert_eq!(start(&[0xFF; 20_480], 15).0, 0);
    assert_eq!(start(&[0xFF; 20_480], 16), (2, Unit::idle()));
}

#[test]
fn the_sessions_command_passes() {
    for number in 1..=COUNT {
        let checks = play(number);
        assert!(!checks.is_empty());
        assert_eq!(line(number, &checks), format!("{number} PASS"));
    }
    let wrong = Check {
        what: "SRD",
        expected: "80".into(),
        got: "90".into(),
    };
    assert_eq!(line(3, &[wrong]), "3 FAIL SRD: expected [80], got [90]");
}
