//! Item 5: wrong ID checks are counted, and after three no ID packet opens the unit.

use crate::support::{barely_blank, status_after, woken, ID_PACKET, WRONG_ID_PACKET as WRONG};
use reference::sessions::{page_program, unit_program, Rig};
use reference::{byte, run, start, Phase};

/// An ID packet that is wrong by its last byte alone.
const WRONG_AT_THE_LAST_BYTE: [u8; 12] = [
    0xF5, 0xDF, 0xFF, 0x00, 0x07, 0x31, 0x32, 0x33, 0x34, 0x35, 0x36, 0x38,
];

/// SRD1 and the count.
fn state(rig: &Rig) -> (u8, u8) {
    (rig.unit.srd1, rig.unit.mismatches)
}

/// SRD1 and the count after these bytes, which must have no reply; 70 must tell the same SRD1.
#[track_caller]
fn state_after(rig: &mut Rig, bytes: &[u8]) -> (u8, u8) {
    status_after(rig, bytes);
    state(rig)
}

/// Closed by three wrong packets.
fn locked() -> Rig {
    let mut rig = Rig::closed(0);
    rig.feed(&WRONG.repeat(3));
    rig
}

#[test]
fn a_right_packet_after_two_wrong_ones_opens_and_leaves_the_count() {
    let mut rig = Rig::closed(0);
    assert_eq!(state_after(&mut rig, &WRONG), (0x04, 1));
    assert_eq!(state_after(&mut rig, &WRONG), (0x04, 2));
    for _ in 0..5 {
        assert_eq!(state_after(&mut rig, &ID_PACKET), (0x0C, 2));
    }
    assert_eq!(rig.feed(&[0xFF, 0x20, 0x00]), [0xFF; 256]);
    // It did not set the count back: one more wrong packet is the third.
    assert_eq!(state_after(&mut rig, &WRONG), (0x04, 3));
    assert_eq!(state_after(&mut rig, &ID_PACKET), (0x04, 3));
}

#[test]
fn after_three_wrong_packets_every_packet_gives_04() {
    let mut rig = Rig::closed(0);
    for count in 1..=3 {
        assert_eq!(state_after(&mut rig, &WRONG), (0x04, count));
    }
    for _ in 0..5 {
        assert_eq!(state_after(&mut rig, &ID_PACKET), (0x04, 3));
        assert_eq!(state_after(&mut rig, &WRONG), (0x04, 3));
    }
}

#[test]
fn right_packets_alone_do_not_count() {
    let mut rig = Rig::closed(0);
    for _ in 0..5 {
        assert_eq!(state_after(&mut rig, &ID_PACKET), (0x0C, 0));
    }
}

#[test]
fn a_wrong_packet_while_open_closes_and_counts() {
    let mut rig = Rig::open(0);
    assert_eq!(state_after(&mut rig, &WRONG), (0x04, 1));
    assert_eq!(rig.feed(&[0xFF, 0x20, 0x00]), []);
}

#[test]
fn right_and_wrong_by_turns_end_closed() {
    let mut rig = Rig::closed(0);
    let turns: [(&[u8], (u8, u8)); 7] = [
        (&ID_PACKET, (0x0C, 0)),
        (&WRONG, (0x04, 1)),
        (&ID_PACKET, (0x0C, 1)),
        (&WRONG, (0x04, 2)),
        (&ID_PACKET, (0x0C, 2)),
        (&WRONG, (0x04, 3)),
        (&ID_PACKET, (0x04, 3)),
    ];
    for (packet, expected) in turns {
        assert_eq!(state_after(&mut rig, packet), expected);
    }
}

#[test]
fn every_way_to_be_wrong_counts() {
    let ids = &ID_PACKET[5..];
    let one_more = [0x31, 0x32, 0x33, 0x34, 0x35, 0x36, 0x37, 0x38];
    let first_wrong = [0x30, 0x32, 0x33, 0x34, 0x35, 0x36, 0x37];
    let last_wrong = &WRONG_AT_THE_LAST_BYTE[5..];
    // The packets of sessions 2 to 4 are among these.
    let ways: [(&[u8], &[u8]); 10] = [
        (&[0xDE, 0xFF, 0x00, 0x07], ids),
        (&[0xDF, 0xFE, 0x00, 0x07], ids),
        (&[0xDF, 0xFF, 0x01, 0x07], ids),
        (&[0xDF, 0xFF, 0x00, 0x06], &ids[..6]),
        (&[0xDF, 0xFF, 0x00, 0x08], &one_more),
        (&[0xDF, 0xFF, 0x00, 0xFF], &[0x31; 255]),
        (&[0xDF, 0xFF, 0x00, 0x00], &[]),
        (&[0x00, 0x00, 0x00, 0x00], &[]),
        (&[0xDF, 0xFF, 0x00, 0x07], &first_wrong),
        (&[0xDF, 0xFF, 0x00, 0x07], last_wrong),
    ];
    for (head, data) in ways {
        let packet = [&[0xF5], head, data].concat();
        let mut rig = Rig::closed(0);
        for count in [1, 2, 3, 3] {
            assert_eq!(state_after(&mut rig, &packet), (0x04, count));
        }
        assert_eq!(state_after(&mut rig, &ID_PACKET), (0x04, 3));
    }
}

#[test]
fn a_packet_counts_at_its_last_byte_and_cut_off_not_at_all() {
    let mut rig = Rig::closed(0);
    let (last, before) = WRONG_AT_THE_LAST_BYTE.split_last().unwrap();
    for &b in before {
        rig.feed(&[b]);
        assert_eq!(state(&rig), (0x00, 0));
    }
    rig.feed(&[*last]);
    assert_eq!(state(&rig), (0x04, 1));
}

#[test]
fn cut_off_by_the_end_of_a_run_it_counts_in_the_next() {
    let mut area = [0; 256];
    for cut in 1..12 {
        let mut rig = Rig::closed(0);
        let (one, next) = WRONG_AT_THE_LAST_BYTE.split_at(cut);
        run(&mut rig.unit, &mut rig.image, one, &mut area);
        assert_eq!(state(&rig), (0x00, 0));
        run(&mut rig.unit, &mut rig.image, next, &mut area);
        assert_eq!(state(&rig), (0x04, 1));
    }
}

#[test]
fn a_cut_off_packet_ends_inside_the_next_one() {
    let mut rig = Rig::closed(0);
    // F5 DF FF 00 07 are the five bytes that were missing, 31 to 37 are unknown.
    let bytes = [&ID_PACKET[..7], &ID_PACKET].concat();
    assert_eq!(state_after(&mut rig, &bytes), (0x04, 1));
}

#[test]
fn a_packet_in_the_data_of_another_does_not_count() {
    let nested = [&[0xF5, 0xDF, 0xFF, 0x00, 0x05][..], &WRONG].concat();
    assert_eq!(state_after(&mut Rig::closed(0), &nested), (0x04, 1));
    let program = unit_program(0x02000, &WRONG);
    assert_eq!(state_after(&mut Rig::open(0), &program), (0x0C, 0));
    // A closed 49 has no data: what follows are commands.
    assert_eq!(state_after(&mut Rig::closed(0), &program), (0x04, 1));
}

#[test]
fn asleep_nothing_counts() {
    let mut rig = Rig::asleep(0);
    rig.feed(&WRONG.repeat(4));
    assert_eq!(state(&rig), (0x00, 0));
}

#[test]
fn a_refused_byte_does_not_count() {
    let mut rig = Rig::closed(0);
    rig.feed(&WRONG[..4]);
    let mut area = [0; 256];
    let short = byte(&mut rig.unit, &mut rig.image, &mut area[..255], 0x00);
    assert_eq!((short.refusal, state(&rig)), (3, (0x00, 0)));
    let taken = byte(&mut rig.unit, &mut rig.image, &mut area, 0x00);
    assert_eq!((taken.refusal, state(&rig)), (0, (0x04, 1)));
}

#[test]
fn no_other_packet_changes_the_count() {
    let packets = [
        vec![0xFF, 0x20, 0x00],
        page_program(0x20, 0x00, 0x00),
        page_program(0x30, 0x00, 0x00),
        unit_program(0x02000, &[]),
        vec![0x20, 0x20, 0x00, 0xD0],
        vec![0x20, 0x20, 0x00, 0xD1],
        vec![0xA7, 0xD0],
        vec![0x50],
        vec![0x70],
        vec![0xFB],
        vec![0xB4],
        vec![0x00],
        vec![0x99],
    ];
    for packet in packets {
        let mut rig = Rig::open(0);
        rig.unit.mismatches = 2;
        rig.feed(&packet);
        assert_eq!(state(&rig), (0x0C, 2));
    }
}

#[test]
fn a_standing_error_bit_does_not_matter() {
    let mut rig = Rig::open(0);
    rig.unit.srd = 0xB0;
    assert_eq!(status_after(&mut rig, &WRONG), [0xB0, 0x04]);
    assert_eq!(rig.unit.mismatches, 1);
}

#[test]
fn a_blank_unit_counts_nothing_and_stays_open() {
    let image = barely_blank();
    let unit = start(&image, 0).1;
    let mut rig = Rig { unit, image };
    rig.unit.phase = Phase::AtCommand;
    // The ID bytes of this image are 00.
    let right = [0xF5, 0xDF, 0xFF, 0x00, 0x07, 0, 0, 0, 0, 0, 0, 0];
    let longest = [&[0xF5, 0x11, 0x22, 0x33, 0xFF][..], &[0x44; 255]].concat();
    for packet in [&WRONG[..], &WRONG, &WRONG, &ID_PACKET, &longest, &right] {
        assert_eq!(state_after(&mut rig, packet), (0x0C, 0));
    }
}

#[test]
fn a_hand_made_unit_of_count_3_is_open_until_its_next_id_packet() {
    for packet in [&ID_PACKET[..], &WRONG] {
        let mut rig = Rig::open(0);
        rig.unit.mismatches = 3;
        rig.feed(&unit_program(0x02000, &[0x5A]));
        assert_eq!((rig.at(0x02000), rig.unit.srd), (0x5A, 0x80));
        rig.feed(&packet[..4]);
        assert_eq!(state(&rig), (0x0C, 3));
        assert_eq!(state_after(&mut rig, &packet[4..]), (0x04, 3));
    }
}

#[test]
fn a_hand_made_unit_that_counts_but_is_not_checked() {
    let checks: [(u8, &[u8], (u8, u8)); 4] = [
        (2, &ID_PACKET, (0x0C, 2)),
        (2, &WRONG, (0x04, 3)),
        (3, &ID_PACKET, (0x04, 3)),
        (3, &WRONG, (0x04, 3)),
    ];
    for (mismatches, packet, expected) in checks {
        let mut rig = Rig::closed(0);
        rig.unit.mismatches = mismatches;
        assert_eq!(state_after(&mut rig, &[]), (0x00, mismatches));
        assert_eq!(state_after(&mut rig, packet), expected);
    }
}

#[test]
fn a_new_start_gives_0_and_a_wake_up_is_none() {
    let mut rig = locked();
    assert_eq!(rig.feed(&woken(&ID_PACKET)), [0xB0]);
    assert_eq!(state(&rig), (0x04, 3));
    rig.unit = start(&rig.image, 0).1;
    assert_eq!(state(&rig), (0x00, 0));
    assert_eq!(rig.feed(&woken(&ID_PACKET)), [0xB0]);
    assert_eq!(state(&rig), (0x0C, 0));
}

#[test]
fn a_locked_unit_drops_guarded_bytes() {
    for b in [0xFF, 0x41, 0x49, 0x20, 0xA7, 0x50] {
        let mut rig = locked();
        let before = rig.unit.clone();
        assert_eq!(rig.feed(&[b]), []);
        assert_eq!(rig.unit, before);
    }
    let mut rig = locked();
    let before = rig.image.clone();
    rig.feed(&[0xA7, 0xD0, 0x20, 0xFF, 0x00, 0xD0]);
    rig.feed(&unit_program(0x02000, &[0x00]));
    rig.feed(&page_program(0x20, 0x00, 0x00));
    assert_eq!(rig.image, before);
}

#[test]
fn a_locked_unit_still_answers_and_reads_an_id_packet_to_its_end() {
    let mut rig = locked();
    assert_eq!(rig.feed(&[0x70]), [0x80, 0x04]);
    assert_eq!(rig.feed(&[0xFB]), *b"VER.2.00");
    assert_eq!(rig.feed(&[0xB3]), [0xB3]);
    assert_eq!(rig.feed(&[0xF5, 0xDF, 0xFF, 0x00, 0x07]), []);
    assert_eq!(rig.feed(&[0x70; 7]), []);
    assert_eq!(rig.feed(&[0x70]), [0x80, 0x04]);
    assert_eq!(rig.unit.collected, [0; 259]);
}

#[test]
fn once_the_id_block_is_erased_seven_ff_are_right_and_the_old_id_counts() {
    let mut rig = Rig::open(0);
    rig.feed(&[0x20, 0xFF, 0x00, 0xD0]);
    let seven_ff = [&[0xF5, 0xDF, 0xFF, 0x00, 0x07][..], &[0xFF; 7]].concat();
    assert_eq!(state_after(&mut rig, &seven_ff), (0x0C, 0));
    assert_eq!(state_after(&mut rig, &ID_PACKET), (0x04, 1));
    assert_eq!(state_after(&mut rig, &seven_ff), (0x0C, 1));
}
