//! Short made-up streams: laws that hold for every stream.

use crate::support::{
    barely_blank, is_protected, woken, Numbers, CELLS, ID_ADDRESSES, ID_PACKET, WRONG_ID_PACKET,
};
use reference::sessions::image;
use reference::{byte, run, start, Command, Phase, Unit};

impl Numbers {
    /// Bytes that the protocol cares for, more often than others.
    fn stream(&mut self) -> Vec<u8> {
        let pieces: [&[u8]; 18] = [
            &ID_PACKET,
            &WRONG_ID_PACKET,
            &[0xFF, 0x20, 0x00],
            &[0xFF, 0xE1, 0x00],
            &[0x41, 0x28, 0x00],
            &[0x49, 0xFF, 0x27, 0x00, 0x02, 0x55, 0xAA],
            &[0x49, 0xFE, 0xFF, 0x00, 0x03],
            &[0x20, 0xC0, 0x00, 0xD0],
            &[0x20, 0xC0, 0x00],
            &[0xA7, 0xD0],
            &[0xA7, 0xFF],
            &[0x50],
            &[0x70],
            &[0xFB],
            &[0xB3],
            &[0x00, 0x00],
            &[0x99],
            &[0x50, 0x70],
        ];
        let mut stream = woken(&[]);
        for _ in 0..60 {
            if self.next(6) == 0 {
                let n = self.next(300);
                stream.extend((0..n).map(|_| self.next(256) as u8));
            } else {
                stream.extend_from_slice(pieces[self.next(pieces.len() as u64) as usize]);
            }
        }
        stream
    }
}

/// The image of a round: the sessions' one for each protection, then a blank one, whose unit no
/// wrong ID closes.
fn image_of_round(round: u8) -> Vec<u8> {
    if round < 16 {
        image()
    } else {
        barely_blank()
    }
}

/// Image offsets of the seven ID bytes.
fn id_offsets() -> [usize; 7] {
    ID_ADDRESSES.map(|address| address as usize - 0xB000)
}

fn protected_cells(protection: u8, image: &[u8]) -> Vec<u8> {
    let mut cells = Vec::new();
    for (block, range) in CELLS.into_iter().enumerate() {
        if is_protected(protection, block) {
            cells.extend_from_slice(&image[range]);
        }
    }
    cells
}

#[test]
fn a_run_equals_its_bytes_one_by_one() {
    let mut numbers = Numbers(0x1234_5678);
    for round in 0..40 {
        let protection = round % 16;
        let stream = numbers.stream();
        let area_len = 256 + numbers.next(2000) as usize;
        let mut image = image_of_round(round);
        let mut unit = start(&image, protection).1;

        let mut run_unit = unit.clone();
        let mut run_image = image.clone();
        let mut run_area = vec![0xA5; area_len];
        let answer = run(&mut run_unit, &mut run_image, &stream, &mut run_area);
        assert_eq!(answer.refusal, 0);

        let mut expected = Vec::new();
        let mut taken = 0;
        for &b in &stream {
            if area_len - expected.len() < 256 {
                break;
            }
            let mut area = [0x5A; 256];
            let answer = byte(&mut unit, &mut image, &mut area, b);
            assert_eq!((answer.refusal, answer.taken), (0, 1));
            assert!(area[answer.reply_len..].iter().all(|&rest| rest == 0x5A));
            expected.extend_from_slice(&area[..answer.reply_len]);
            taken += 1;
        }
        assert_eq!((answer.taken, answer.reply_len), (taken, expected.len()));
        expected.resize(area_len, 0xA5);
        assert_eq!(run_area, expected);
        assert_eq!(run_unit, unit);
        assert_eq!(run_image, image);
    }
}

#[test]
fn units_stay_in_range_and_protected_blocks_unchanged() {
    let mut numbers = Numbers(0x0BAD_CAFE);
    for round in 0..32 {
        let protection = round % 16;
        let mut image = image_of_round(round);
        let guarded = protected_cells(protection, &image);
        let mut unit = start(&image, protection).1;
        let mut area = [0; 256];
        for b in numbers.stream() {
            assert_eq!(byte(&mut unit, &mut image, &mut area, b).refusal, 0);
            assert!(unit.in_range());
            assert_eq!(unit.protection, protection);
        }
        assert_eq!(protected_cells(protection, &image), guarded);
    }
}

#[test]
fn until_it_opens_the_image_stays_and_only_the_id_bytes_can_be_felt() {
    let mut numbers = Numbers(0x5EED_5EED);
    for _ in 0..32 {
        let mut one = image();
        // The same ID bytes, everything else another, still not blank.
        let mut other: Vec<u8> = (0..20_480).map(|_| numbers.next(256) as u8).collect();
        for offset in id_offsets() {
            other[offset] = one[offset];
        }
        other[20_476] = 0x00;
        let (one_before, other_before) = (one.clone(), other.clone());
        let mut one_unit: Unit = start(&one, 0).1;
        let mut other_unit = start(&other, 0).1;
        let (mut one_area, mut other_area) = ([0; 256], [0; 256]);
        for b in numbers.stream() {
            if one_unit.is_open() {
                break;
            }
            let one_answer = byte(&mut one_unit, &mut one, &mut one_area, b);
            let other_answer = byte(&mut other_unit, &mut other, &mut other_area, b);
            assert_eq!(one_answer, other_answer);
            assert_eq!(one_area, other_area);
            assert_eq!(one_unit, other_unit);
            assert_eq!(one, one_before);
            assert_eq!(other, other_before);
            if one_unit.is_open() {
                assert_eq!(one_unit.phase, Phase::AtCommand);
                assert_eq!((b, one_answer.reply_len), (0x37, 0));
            }
        }
    }
}

#[test]
fn open_exactly_where_the_last_check_was_right_and_fewer_than_three_were_wrong() {
    let mut numbers = Numbers(0x00C0_FFEE);
    for _ in 0..32 {
        let mut image = image();
        let mut unit = start(&image, 0).1;
        let mut area = [0; 256];
        let (mut srd1, mut wrong) = (0x00, 0);
        for b in numbers.stream() {
            let before = unit.clone();
            byte(&mut unit, &mut image, &mut area, b);
            if let Some(packet) = ended_check(&before, &unit, b) {
                let id = id_offsets().map(|offset| image[offset]);
                let right = packet == [&[0xDF, 0xFF, 0x00, 0x07][..], &id].concat();
                wrong += u8::from(!right);
                srd1 = if right && wrong < 3 { 0x0C } else { 0x04 };
            }
            assert_eq!((unit.srd1, unit.mismatches), (srd1, wrong.min(3)));
        }
    }
}

/// The ID packet that this byte ended, without its command byte.
fn ended_check(before: &Unit, after: &Unit, b: u8) -> Option<Vec<u8>> {
    match before.phase {
        Phase::InPacket {
            command: Command::IdCheck,
            received,
        } if after.phase == Phase::AtCommand => {
            let earlier = &before.collected[..usize::from(received)];
            Some([earlier, &[b]].concat())
        }
        _ => None,
    }
}
