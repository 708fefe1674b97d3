//! Runs: their end, their stops, and their equality with single bytes.

use crate::support::{all_are, in_packet};
use reference::sessions::{image, Rig};
use reference::{run, Command, Phase};

fn open() -> Rig {
    Rig::open(0)
}

/// Runs the bytes on an area of this length: how many were taken, and the replies. It must not be
/// refused, and past the replies the area must keep its bytes.
#[track_caller]
fn run_on(rig: &mut Rig, area_len: usize, bytes: &[u8]) -> (usize, Vec<u8>) {
    let mut area = vec![0xAA; area_len];
    let answer = run(&mut rig.unit, &mut rig.image, bytes, &mut area);
    assert_eq!(answer.refusal, 0);
    assert!(all_are(0xAA, &area[answer.reply_len..]));
    area.truncate(answer.reply_len);
    (answer.taken, area)
}

#[test]
fn an_empty_run_takes_nothing_and_changes_nothing() {
    let mut rig = open();
    rig.unit.collected = [3; 259];
    let before = rig.unit.clone();
    assert_eq!(run_on(&mut rig, 256, &[]), (0, vec![]));
    assert_eq!(rig.unit, before);
    assert_eq!(rig.image, image());
}

#[test]
fn replies_are_joined_at_the_front() {
    let bytes = [0x70, 0xB2, 0x00, 0xFB, 0x99, 0x70];
    let replies = [&[0x80, 0x0C, 0xB2][..], b"VER.2.00", &[0x80, 0x0C]].concat();
    assert_eq!(run_on(&mut open(), 300, &bytes), (6, replies));
}

#[test]
fn with_511_bytes_it_stops_before_the_silent_byte_after_a_page() {
    let bytes = [0xFF, 0x20, 0x00, 0x00];
    let page = vec![0xFF; 256];
    assert_eq!(run_on(&mut open(), 511, &bytes), (3, page.clone()));
    // With one byte more of area it goes on.
    assert_eq!(run_on(&mut open(), 512, &bytes), (4, page));
}

#[test]
fn with_256_bytes_it_stops_after_the_first_reply() {
    let mut rig = open();
    let bytes = [0x00, 0x99, 0xB4, 0xB3, 0xB2];
    assert_eq!(run_on(&mut rig, 256, &bytes), (3, vec![0xB4]));
    assert_eq!(rig.unit.rate, 4);
    // A stop is no refusal, and the rest goes on in the next run.
    assert_eq!(run_on(&mut rig, 256, &bytes[3..]), (1, vec![0xB3]));
    assert_eq!(rig.unit.rate, 3);
}

#[test]
fn a_reply_at_the_last_byte_of_a_run_is_no_stop() {
    let mut rig = open();
    let page = vec![0xFF; 256];
    assert_eq!(run_on(&mut rig, 256, &[0xFF, 0x20, 0x00]), (3, page));
    assert_eq!(rig.unit.phase, Phase::AtCommand);
}

#[test]
fn it_stops_inside_a_packet_only_for_want_of_area() {
    let mut rig = open();
    let status = vec![0x80, 0x0C];
    // After 70's two bytes 255 are left: the run stops before the packet's command byte.
    assert_eq!(run_on(&mut rig, 257, &[0x70, 0x20]), (1, status.clone()));
    assert_eq!(rig.unit.phase, Phase::AtCommand);
    assert_eq!(run_on(&mut rig, 258, &[0x70, 0x20, 0xC0]), (3, status));
    assert_eq!(rig.unit.phase, in_packet(Command::BlockErase, 1));
}

#[test]
fn a_run_without_replies_is_taken_whole() {
    let bytes = vec![0x00; 60_000];
    let mut rig = Rig::asleep(0);
    assert_eq!(run_on(&mut rig, 256, &bytes), (60_000, vec![]));
}
