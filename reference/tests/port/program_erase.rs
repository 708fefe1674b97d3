//! Programs and erases: error bits, confirms, protection, and the order of the reasons.

use crate::support::{all_are, is_protected, open_over, status_after, CELLS};
use reference::sessions::{page_program, unit_program, Rig};
use reference::Phase;

#[test]
fn a_standing_error_bit_stops_programs_and_erases() {
    for srd in [0x90, 0xA0, 0xB0] {
        let mut rig = Rig::open(0);
        rig.unit.srd = srd;
        let before = rig.image.clone();
        rig.feed(&unit_program(0x02000, &[0x00]));
        // Not even for n = 0, an outside address, or a bank's end.
        rig.feed(&unit_program(0x02000, &[]));
        rig.feed(&unit_program(0x03000, &[0x00]));
        rig.feed(&unit_program(0x0FFFF, &[0x00, 0x00]));
        rig.feed(&page_program(0x20, 0x00, 0x00));
        rig.feed(&page_program(0x30, 0x00, 0x00));
        // Right, cancelled and wrong confirms; outside.
        for confirm in [0xD0, 0xFF, 0xD1, 0x00] {
            rig.feed(&[0x20, 0xFF, 0x00, confirm]);
            rig.feed(&[0x20, 0x30, 0x00, confirm]);
            rig.feed(&[0xA7, confirm]);
        }
        assert_eq!(rig.unit.srd, srd);
        assert_eq!(rig.image, before);
        assert_eq!(rig.unit.phase, Phase::AtCommand);
        // After 50 it works again.
        rig.feed(&[0x50]);
        rig.feed(&unit_program(0x02000, &[0x00]));
        assert_eq!((rig.unit.srd, rig.at(0x02000)), (0x80, 0x00));
    }
}

#[test]
fn erase_confirms() {
    for confirm in 0..=0xFF {
        let (srd, left) = match confirm {
            0xD0 => (0x80, 0xFF),
            0xFF => (0x80, 0x00),
            _ => (0xB0, 0x00),
        };
        for packet in [&[0x20, 0x20, 0x00, confirm][..], &[0xA7, confirm]] {
            let mut rig = open_over(0x00, 0);
            rig.feed(packet);
            assert_eq!((rig.unit.srd, rig.at(0x02000)), (srd, left));
        }
    }
}

#[test]
fn a_wrong_confirm_comes_before_outside_or_protected() {
    for wrong in [[0x20, 0x30, 0x00, 0xD1], [0x20, 0xC0, 0x00, 0x00]] {
        assert_eq!(status_after(&mut Rig::open(15), &wrong), [0xB0, 0x0C]);
    }
    // FF never sets a bit.
    let cancelled = [0x20, 0x30, 0x00, 0xFF, 0x20, 0xC0, 0x00, 0xFF, 0xA7, 0xFF];
    assert_eq!(status_after(&mut Rig::open(15), &cancelled), [0x80, 0x0C]);
    let outside = [0x20, 0x30, 0x00, 0xD0];
    assert_eq!(status_after(&mut Rig::open(0), &outside), [0xA0, 0x0C]);
}

#[test]
fn erase_all_skips_protected_blocks_with_no_error() {
    for protection in 0..=15 {
        let mut rig = open_over(0x00, protection);
        rig.feed(&[0xA7, 0xD0]);
        assert_eq!(rig.unit.srd, 0x80);
        for (block, cells) in CELLS.into_iter().enumerate() {
            let kept = is_protected(protection, block);
            assert!(all_are(if kept { 0x00 } else { 0xFF }, &rig.image[cells]));
        }
    }
}

#[test]
fn program_sets_sr4_where_a_bit_would_have_to_rise_and_writes_all() {
    let mut rig = Rig::open(0);
    rig.set(0x02001, 0x7F);
    rig.feed(&unit_program(0x02000, &[0x12, 0x80, 0x34]));
    assert_eq!(rig.unit.srd, 0x90);
    let cells = [rig.at(0x02000), rig.at(0x02001), rig.at(0x02002)];
    assert_eq!(cells, [0x12, 0x00, 0x34]);
    // Equal data over itself is no error.
    let mut rig = Rig::open(0);
    rig.set(0x02000, 0x5A);
    rig.feed(&unit_program(0x02000, &[0x5A]));
    assert_eq!((rig.unit.srd, rig.at(0x02000)), (0x80, 0x5A));
}
