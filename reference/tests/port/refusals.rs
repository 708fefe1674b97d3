//! Every refusal of every call, their order, and that a refusal changes nothing.

use crate::support::{all_are, barely_blank};
use reference::sessions::image;
use reference::{byte, run, start, Answer, Phase, Unit};

fn refused(refusal: u8) -> Answer {
    Answer {
        refusal,
        taken: 0,
        reply_len: 0,
    }
}

/// A unit with something in every field, open, so that most bytes would change it.
fn awake() -> Unit {
    let mut unit = start(&image(), 2).1;
    unit.phase = Phase::AtCommand;
    unit.srd = 0xA0;
    unit.srd1 = 0x0C;
    unit.rate = 3;
    unit.mismatches = 2;
    unit.collected = [0x5A; 259];
    unit
}

/// Out of range by its rate, everything else good.
fn out_of_range() -> Unit {
    let mut unit = awake();
    unit.rate = 5;
    unit
}

/// Both calls give this refusal and leave everything as it was.
fn both_refuse(expected: u8, unit: &Unit, image_len: usize, area_len: usize) {
    for bytes in [&[][..], &[0xB1], &[0x70, 0x50, 0xB2, 0x00]] {
        let mut given = unit.clone();
        let mut image = vec![0x3C; image_len];
        let mut area = vec![0xA5; area_len];
        let answer = run(&mut given, &mut image, bytes, &mut area);
        assert_eq!(answer, refused(expected));
        if let Some(&b) = bytes.first() {
            let answer = byte(&mut given, &mut image, &mut area, b);
            assert_eq!(answer, refused(expected));
        }
        assert_eq!(&given, unit);
        assert_eq!(image, vec![0x3C; image_len]);
        assert_eq!(area, vec![0xA5; area_len]);
    }
}

#[test]
fn start_refuses_an_image_size() {
    for len in [0, 1, 256, 20_479, 20_481, 32_768] {
        assert_eq!(start(&vec![0xFF; len], 0), (1, Unit::idle()));
        assert_eq!(start(&vec![0x00; len], 15), (1, Unit::idle()));
    }
}

#[test]
fn start_refuses_a_protection() {
    for protection in 16..=255 {
        assert_eq!(start(&image(), protection), (2, Unit::idle()));
        // A blank image too: the idle unit is not the blank one.
        assert_eq!(start(&[0xFF; 20_480], protection), (2, Unit::idle()));
    }
    for protection in 0..=15 {
        let (refusal, unit) = start(&image(), protection);
        assert_eq!((refusal, unit.protection), (0, protection));
    }
}

#[test]
fn at_start_1_comes_before_2() {
    assert_eq!(start(&[0xFF; 20_479], 16), (1, Unit::idle()));
    assert_eq!(start(&[], 255), (1, Unit::idle()));
}

#[test]
fn fresh_units() {
    let idle = Unit {
        phase: Phase::Asleep { zeros: 0 },
        srd: 0x80,
        srd1: 0x00,
        blank: false,
        protection: 0,
        rate: 0,
        mismatches: 0,
        collected: [0; 259],
    };
    assert_eq!(Unit::idle(), idle);
    assert_eq!(start(&image(), 0), (0, idle.clone()));
    let blank = Unit {
        srd1: 0x0C,
        blank: true,
        protection: 9,
        ..idle
    };
    assert_eq!(start(&[0xFF; 20_480], 9), (0, blank));
}

#[test]
fn blank_looks_at_three_bytes() {
    for offset in 20_476..=20_478 {
        let mut image = vec![0xFF; 20_480];
        image[offset] = 0xFE;
        assert!(!start(&image, 0).1.blank);
    }
    let image = barely_blank();
    assert_eq!(image[20_479], 0x00);
    assert!(start(&image, 0).1.blank);
}

#[test]
fn byte_and_run_refuse_an_image_size() {
    for len in [0, 1, 20_479, 20_481] {
        both_refuse(1, &awake(), len, 256);
        both_refuse(1, &awake(), len, 4096);
    }
}

#[test]
fn byte_and_run_refuse_a_short_area_whatever_the_byte_replies() {
    for len in [0, 1, 2, 8, 255] {
        both_refuse(3, &awake(), 20_480, len);
        both_refuse(3, &Unit::idle(), 20_480, len);
    }
    let mut area = [0; 256];
    let answer = byte(&mut awake(), &mut image(), &mut area, 0x70);
    assert_eq!(
        answer,
        Answer {
            refusal: 0,
            taken: 1,
            reply_len: 2
        }
    );
}

#[test]
fn byte_and_run_refuse_a_unit_out_of_range() {
    both_refuse(4, &out_of_range(), 20_480, 256);
    both_refuse(4, &out_of_range(), 20_480, 511);
}

#[test]
fn at_a_byte_or_run_1_comes_before_3_before_4() {
    both_refuse(1, &out_of_range(), 20_479, 255);
    both_refuse(1, &awake(), 20_479, 255);
    both_refuse(1, &out_of_range(), 20_481, 256);
    both_refuse(3, &out_of_range(), 20_480, 255);
}

#[test]
fn protection_is_refusal_4_at_a_byte_and_never_2() {
    let mut unit = awake();
    unit.protection = 16;
    both_refuse(4, &unit, 20_480, 256);
    unit.protection = 255;
    both_refuse(4, &unit, 20_480, 256);
    both_refuse(3, &unit, 20_480, 255);
}

#[test]
fn after_a_refusal_the_unit_goes_on_as_if_it_had_not_been() {
    let mut unit = Unit::idle();
    let mut image = image();
    let mut area = [0; 256];
    for _ in 0..16 {
        assert_eq!(
            byte(&mut unit, &mut image, &mut area[..255], 0xFF).refusal,
            3
        );
        assert_eq!(byte(&mut unit, &mut image, &mut area, 0x00).taken, 1);
    }
    let answer = byte(&mut unit, &mut image, &mut area, 0xB0);
    assert_eq!((answer.reply_len, area[0]), (1, 0xB0));
}

#[test]
fn the_reply_fills_the_front_and_the_rest_keeps_its_bytes() {
    for (b, expected) in [(0xFB, &b"VER.2.00"[..]), (0x00, &[])] {
        let mut area = [0xEE; 300];
        let answer = byte(&mut awake(), &mut image(), &mut area, b);
        assert_eq!((answer.taken, answer.reply_len), (1, expected.len()));
        let (reply, rest) = area.split_at(expected.len());
        assert_eq!(reply, expected);
        assert!(all_are(0xEE, rest));
    }
}

#[test]
fn the_blank_flag_decides_not_the_lent_image() {
    let mut area = [0; 256];
    // A blank unit on an image that is not blank: a wrong ID keeps it open and does not count.
    let mut unit = start(&[0xFF; 20_480], 0).1;
    unit.phase = Phase::AtCommand;
    let wrong = [0xF5, 0x00, 0x00, 0x00, 0x00];
    run(&mut unit, &mut image(), &wrong, &mut area);
    assert_eq!((unit.srd1, unit.blank, unit.mismatches), (0x0C, true, 0));
    // A unit that is not blank on a blank image: a wrong ID closes it, and here is the third.
    let mut unit = awake();
    run(&mut unit, &mut [0xFF; 20_480], &wrong, &mut area);
    assert_eq!((unit.srd1, unit.blank, unit.mismatches), (0x04, false, 3));
}
