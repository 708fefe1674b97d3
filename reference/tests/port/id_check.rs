//! The ID check: what it wants, what it compares with, and when it closes the unit again.

use crate::support::{status_after, ID_ADDRESSES, ID_PACKET, WRONG_ID_PACKET};
use reference::sessions::{unit_program, Rig, IDS};
use reference::{start, Phase};

const MISMATCH: [u8; 2] = [0x80, 0x04];
const MATCH: [u8; 2] = [0x80, 0x0C];

/// The right packet but for the ID byte of this place, 0 to 6.
fn with_id_byte(place: usize, byte: u8) -> [u8; 12] {
    let mut packet = ID_PACKET;
    packet[5 + place] = byte;
    packet
}

#[test]
fn a_closed_49_swallows_itself_alone_and_can_hide_an_id_packet() {
    // Low, mid, high 00 and a size: all commands. The data is an ID packet and opens the unit.
    let packet = unit_program(0x000000, &ID_PACKET);
    assert_eq!(status_after(&mut Rig::closed(0), &packet), MATCH);
}

#[test]
fn a_packet_in_the_data_of_a_wrong_id_packet_is_data() {
    // With one byte less of size, the last ID byte is an unknown command.
    for size in [12, 11] {
        let packet = [&[0xF5, 0xDF, 0xFF, 0x00, size][..], &ID_PACKET].concat();
        assert_eq!(status_after(&mut Rig::closed(0), &packet), MISMATCH);
    }
}

#[test]
fn id_check_wants_address_size_and_bytes() {
    let shapes: [(&[u8], &[u8]); 8] = [
        (&[0xDF, 0xFF, 0x00], &[0x31, 0x32, 0x33, 0x34, 0x35, 0x36]),
        (&[0xDF, 0xFE, 0x00], &IDS),
        (&[0xDF, 0xFF, 0x01], &IDS),
        (&[0xDF, 0xFF, 0xFF], &IDS),
        (&[0xE3, 0xFF, 0x00], &IDS),
        (&[0xDF, 0xFF, 0x00], &[]),
        (&[0xDF, 0xFF, 0x00], &[0xFF; 7]),
        (
            &[0xDF, 0xFF, 0x00],
            &[0x31, 0x32, 0x33, 0x34, 0x35, 0x36, 0x37, 0x38],
        ),
    ];
    for (address, bytes) in shapes {
        let mut rig = Rig::closed(0);
        let packet = [&[0xF5], address, &[bytes.len() as u8], bytes].concat();
        assert_eq!(status_after(&mut rig, &packet), MISMATCH);
        assert_eq!(status_after(&mut rig, &ID_PACKET), MATCH);
    }
    // Each of the seven bytes counts.
    for (place, byte) in IDS.into_iter().enumerate() {
        let packet = with_id_byte(place, byte ^ 0x80);
        assert_eq!(status_after(&mut Rig::closed(0), &packet), MISMATCH);
    }
}

#[test]
fn the_stored_id_bytes_are_at_their_seven_addresses() {
    for (place, address) in ID_ADDRESSES.into_iter().enumerate() {
        let mut rig = Rig::closed(0);
        assert_eq!(rig.at(address), 0x31 + place as u8);
        rig.set(address, 0x99);
        assert_eq!(status_after(&mut rig, &ID_PACKET), MISMATCH);
        assert_eq!(status_after(&mut rig, &with_id_byte(place, 0x99)), MATCH);
    }
    // 0FFE7 is skipped.
    let mut rig = Rig::closed(0);
    rig.set(0x0FFE7, 0x99);
    assert_eq!(status_after(&mut rig, &ID_PACKET), MATCH);
}

#[test]
fn a_wrong_check_closes_again_and_50_does_not_touch_srd1() {
    let mut rig = Rig::open(0);
    assert_eq!(status_after(&mut rig, &[0x50]), MATCH);
    assert_eq!(status_after(&mut rig, &WRONG_ID_PACKET), MISMATCH);
    assert_eq!(status_after(&mut rig, &[0x50]), MISMATCH);
    // Closed again: a page read is dropped.
    assert_eq!(rig.feed(&[0xFF, 0x20, 0x00]), []);
}

#[test]
fn a_blank_unit_stays_open() {
    let image = vec![0xFF; 20_480];
    let unit = start(&image, 0).1;
    let mut rig = Rig { unit, image };
    rig.unit.phase = Phase::AtCommand;
    for size in [0, 1, 7, 255] {
        // Read to its end all the same.
        let data = vec![0x70; usize::from(size)];
        let packet = [&[0xF5, 0x11, 0x22, 0x33, size][..], &data].concat();
        assert_eq!(status_after(&mut rig, &packet), MATCH);
    }
    // Blankness is judged once: a programmed reset vector changes nothing.
    rig.feed(&unit_program(0x0FFFC, &[0, 0, 0]));
    let wrong = [0xF5, 0x11, 0x22, 0x33, 0x00];
    assert_eq!(status_after(&mut rig, &wrong), MATCH);
}

#[test]
fn the_id_is_the_one_now_in_the_image() {
    let mut rig = Rig::open(0);
    // Programming clears bits of the last ID byte: 37 becomes 36, and the old ID is wrong.
    assert_eq!(
        status_after(&mut rig, &unit_program(0x0FFFB, &[0x36])),
        MATCH
    );
    assert_eq!(status_after(&mut rig, &ID_PACKET), MISMATCH);
    assert_eq!(status_after(&mut rig, &with_id_byte(6, 0x36)), MATCH);
    // After an erase of the last block seven FF are right, though the unit did not start blank.
    rig.feed(&[0x20, 0xFF, 0x00, 0xD0]);
    assert_eq!(status_after(&mut rig, &ID_PACKET), MISMATCH);
    let mut erased = ID_PACKET;
    erased[5..].fill(0xFF);
    assert_eq!(status_after(&mut rig, &erased), MATCH);
    assert!(!rig.unit.blank);
}
