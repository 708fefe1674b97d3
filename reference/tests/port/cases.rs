//! The case format, with cases built by hand here.

use crate::support::{answered, framed, in_packet, WRONG_ID_PACKET};
use reference::cases::replay;
use reference::record::{decode, encode, Record, RECORD_LEN};
use reference::{Command, Unit};

/// The nine bytes of a record before the collected ones.
type Head = [u8; 9];

/// Heads of units that are out of range.
const OUT_OF_RANGE: [Head; 16] = [
    [0x00, 17, 0, 0x80, 0x00, 0, 0, 0, 0],
    [0x00, 255, 0, 0x00, 0xFF, 1, 255, 255, 255],
    [0x01, 0, 0, 0x80, 0x00, 1, 0, 0, 0],
    [0x01, 0, 0, 0x80, 0x00, 0, 16, 0, 0],
    [0x01, 0, 0, 0x81, 0x08, 1, 16, 5, 0],
    [0xFF, 0, 0, 0x80, 0x04, 0, 0, 0, 0],
    [0xFF, 2, 0, 0x80, 0x0C, 0, 0, 0, 0],
    [0xFF, 0xFF, 0xFF, 0x7F, 0x00, 0, 0, 0, 0],
    [0x41, 0x02, 0x01, 0x80, 0x0C, 0, 0, 0, 0],
    [0x49, 3, 0, 0x80, 0x04, 0, 0, 0, 0],
    [0x49, 0xFF, 0xFF, 0x80, 0x0C, 0, 0, 0, 0],
    [0x20, 3, 0, 0x80, 0x0C, 0, 0, 0, 0],
    [0xA7, 1, 0, 0x80, 0x0C, 0, 0, 0, 0],
    [0x01, 0, 0, 0x80, 0x04, 0, 0, 0, 4],
    [0x00, 0, 0, 0x80, 0x00, 0, 0, 0, 255],
    [0x01, 0, 0, 0x80, 0x0C, 1, 0, 0, 1],
];

/// Heads that no unit has: an unknown tag, a count at a command, a blank byte over 1.
const NO_UNIT: [Head; 6] = [
    [0x02, 0, 0, 0x80, 0x00, 0, 0, 0, 0],
    [0x71, 0, 0, 0x80, 0x00, 0, 0, 0, 0],
    [0x01, 1, 0, 0x80, 0x00, 0, 0, 0, 0],
    [0x01, 0, 2, 0x80, 0x00, 0, 0, 0, 0],
    [0x00, 0, 0, 0x80, 0x00, 2, 0, 0, 0],
    [0x01, 0, 0, 0x33, 0x44, 2, 0, 0, 0],
];

/// A case's body, put together field by field.
struct Case {
    mode: u8,
    protection: u8,
    trace: u8,
    unit: Record,
    image_len: u16,
    fill: u8,
    patches: Vec<(u16, Vec<u8>)>,
    groups: Vec<(u8, u16, u8, Vec<u8>)>,
}

impl Case {
    fn started(protection: u8) -> Case {
        Case {
            mode: 0,
            protection,
            trace: 0,
            unit: [0; RECORD_LEN],
            image_len: 20_480,
            fill: 0xFF,
            patches: Vec::new(),
            groups: Vec::new(),
        }
    }

    fn given(unit: Record) -> Case {
        Case {
            mode: 1,
            unit,
            ..Case::started(0)
        }
    }

    fn group(mut self, kind: u8, area_len: u16, area_fill: u8, bytes: &[u8]) -> Case {
        self.groups
            .push((kind, area_len, area_fill, bytes.to_vec()));
        self
    }

    fn image(mut self, len: u16, fill: u8) -> Case {
        self.image_len = len;
        self.fill = fill;
        self
    }

    fn patch(mut self, offset: u16, bytes: &[u8]) -> Case {
        self.patches.push((offset, bytes.to_vec()));
        self
    }

    fn body(&self) -> Vec<u8> {
        let mut body = vec![self.mode, self.protection, self.trace];
        body.extend_from_slice(&self.unit);
        body.extend_from_slice(&self.image_len.to_le_bytes());
        body.push(self.fill);
        body.extend_from_slice(&(self.patches.len() as u16).to_le_bytes());
        for (offset, bytes) in &self.patches {
            body.extend_from_slice(&offset.to_le_bytes());
            body.push(bytes.len() as u8);
            body.extend_from_slice(bytes);
        }
        body.extend_from_slice(&(self.groups.len() as u16).to_le_bytes());
        for (kind, area_len, area_fill, bytes) in &self.groups {
            body.push(*kind);
            body.extend_from_slice(&area_len.to_le_bytes());
            body.push(*area_fill);
            body.extend_from_slice(&(bytes.len() as u16).to_le_bytes());
            body.extend_from_slice(bytes);
        }
        body
    }

    fn batch(&self) -> Vec<u8> {
        framed(&self.body())
    }
}

fn answer(batch: &[u8]) -> Vec<u8> {
    let (output, bad) = answered(|i, o| replay(i, o), batch);
    assert_eq!(bad, None);
    output
}

/// What is written for a batch that is not well formed, and the number of the bad case.
fn stopped(batch: &[u8]) -> (Vec<u8>, u64) {
    let (output, bad) = answered(|i, o| replay(i, o), batch);
    (output, bad.expect("a bad case"))
}

fn record(head: Head, collected: u8) -> Record {
    let mut record = [collected; RECORD_LEN];
    record[..9].copy_from_slice(&head);
    record
}

/// The idle unit's record.
fn idle() -> Record {
    record([0x00, 0, 0, 0x80, 0x00, 0, 0, 0, 0], 0)
}

#[test]
fn records() {
    assert_eq!(encode(&Unit::idle()), idle());
    let mut unit = Unit {
        phase: in_packet(Command::PageProgram, 0x0101),
        srd: 0xB0,
        srd1: 0x0C,
        blank: true,
        protection: 9,
        rate: 3,
        mismatches: 2,
        collected: [0; 259],
    };
    unit.collected[0] = 0xAA;
    unit.collected[258] = 0xBB;
    let mut expected = record([0x41, 0x01, 0x01, 0xB0, 0x0C, 1, 9, 3, 2], 0);
    expected[9] = 0xAA;
    expected[267] = 0xBB;
    assert_eq!(encode(&unit), expected);
    assert_eq!(decode(&expected), Some(unit));
    // Out of range is not out of the format: such a record too comes back bit for bit.
    let in_range = [0xF5, 4, 0, 0x80, 0x04, 0, 0, 0, 0];
    for head in OUT_OF_RANGE.into_iter().chain([in_range]) {
        let given = record(head, 0x66);
        assert_eq!(encode(&decode(&given).unwrap()), given);
    }
    for head in NO_UNIT {
        assert_eq!(decode(&record(head, 0)), None);
    }
}

#[test]
fn an_empty_batch() {
    assert_eq!(answer(&[]), []);
}

#[test]
fn a_start_alone() {
    let output = answer(&Case::started(6).batch());
    let blank = record([0x00, 0, 0, 0x80, 0x0C, 1, 6, 0, 0], 0);
    let expected = [&[0][..], &blank, &blank, &[0xFF; 20_480]].concat();
    assert_eq!(output, expected);
}

#[test]
fn refused_starts_go_on_with_the_idle_unit() {
    let one_zero_more = record([0x00, 1, 0, 0x80, 0x00, 0, 0, 0, 0], 0);
    for (image_len, refusal, call, after) in [
        (20_480, 2, [0, 1, 0, 0, 0, 0x80, 0x00], one_zero_more),
        (3, 1, [1, 0, 0, 0, 0, 0x80, 0x00], idle()),
    ] {
        let case = Case::started(16).group(0, 256, 7, &[0x00]);
        let image = vec![0xFF; usize::from(image_len)];
        let expected = [&[refusal][..], &idle(), &call, &[7; 256], &after, &image].concat();
        assert_eq!(answer(&case.image(image_len, 0xFF).batch()), expected);
    }
}

#[test]
fn byte_calls_have_an_area_each_and_a_run_has_one() {
    let unit = record([0x01, 0, 0, 0x80, 0x04, 0, 0, 0, 0], 0x11);
    let case = Case::given(unit)
        .group(0, 257, 0xEE, &[0x70, 0x99])
        .group(1, 256, 0xDD, &[0xB1, 0xB2])
        .group(1, 258, 0xCC, &[])
        .group(0, 16_384, 0x00, &[])
        .group(1, 255, 0xBB, &[0x70]);
    let mut first = [0xEE; 257];
    first[..2].copy_from_slice(&[0x80, 0x04]);
    let mut run = [0xDD; 256];
    run[0] = 0xB1;
    let expected = [
        &[0, 1, 0, 2, 0, 0x80, 0x04][..],
        &first,
        &[0, 1, 0, 0, 0, 0x80, 0x04],
        &[0xEE; 257],
        &[0, 1, 0, 1, 0, 0x80, 0x04],
        &run,
        &[0, 0, 0, 0, 0, 0x80, 0x04],
        &[0xCC; 258],
        &[3, 0, 0, 0, 0, 0x80, 0x04],
        &[0xBB; 255],
        &record([0x01, 0, 0, 0x80, 0x04, 0, 0, 1, 0], 0),
        &[0xFF; 20_480],
    ]
    .concat();
    assert_eq!(answer(&case.batch()), expected);
}

#[test]
fn with_trace_the_image_follows_every_call() {
    let unit = record([0xA7, 0, 0, 0x80, 0x0C, 0, 1, 0, 0], 0);
    let case = Case {
        trace: 1,
        fill: 0x00,
        ..Case::given(unit).group(0, 256, 0, &[0xD0, 0x00])
    };
    let mut image = [0xFF; 20_480];
    image[..2048].fill(0x00);
    let call = [&[0, 1, 0, 0, 0, 0x80, 0x0C][..], &[0; 256], &image].concat();
    let expected = [
        &call[..],
        &call,
        &record([0x01, 0, 0, 0x80, 0x0C, 0, 1, 0, 0], 0),
        &image,
    ]
    .concat();
    assert_eq!(answer(&case.batch()), expected);
}

#[test]
fn the_count_of_wrong_checks_is_read_and_written() {
    let unit = record([0x01, 0, 0, 0x80, 0x00, 0, 0, 0, 2], 0);
    let expected = [
        &[0, 5, 0, 0, 0, 0x80, 0x04][..],
        &[0; 256],
        &record([0x01, 0, 0, 0x80, 0x04, 0, 0, 0, 3], 0),
        &[0xFF; 20_480],
    ]
    .concat();
    let case = Case::given(unit).group(1, 256, 0, &WRONG_ID_PACKET);
    assert_eq!(answer(&case.batch()), expected);
}

#[test]
fn patches_in_order_and_past_the_end() {
    let case = Case::given(idle())
        .image(8, 0x20)
        .patch(1, &[1, 2, 3])
        .patch(2, &[9])
        .patch(6, &[7, 7, 7])
        .patch(8, &[5])
        .patch(65_535, &[5])
        .patch(0, &[]);
    let image = [0x20, 1, 9, 3, 0x20, 0x20, 7, 7];
    assert_eq!(answer(&case.batch()), [&idle()[..], &image].concat());
}

#[test]
fn a_unit_out_of_range_is_handed_back_as_given() {
    // What no unit has is out of range too.
    for head in OUT_OF_RANGE.into_iter().chain(NO_UNIT) {
        let given = record(head, 0x42);
        let refused = |refusal: u8, area: &[u8]| {
            let call = [refusal, 0, 0, 0, 0, head[3], head[4]];
            [&call[..], area].concat()
        };
        let case = Case::given(given)
            .group(0, 256, 1, &[0x70])
            .group(1, 300, 2, &[0x70, 0x70])
            .group(1, 255, 3, &[]);
        let expected = [
            &refused(4, &[1; 256])[..],
            &refused(4, &[2; 300]),
            &refused(3, &[3; 255]),
            &given,
            &[0xFF; 20_480],
        ]
        .concat();
        assert_eq!(answer(&case.batch()), expected);
    }
}

#[test]
fn the_largest_run_and_area() {
    let unit = record([0x01, 0, 0, 0x80, 0x0C, 0, 0, 0, 0], 0);
    let bytes = [0xFF, 0x30, 0x00].repeat(21_000);
    let output = answer(&Case::given(unit).group(1, 16_384, 0, &bytes).batch());
    // 64 pages fill the area; the run stops before the byte after the last.
    assert_eq!(output[..7], [0, 192, 0, 0x00, 0x40, 0x80, 0x0C]);
    assert_eq!(output[7..7 + 16_384], [0xFF; 16_384]);
    let zeros = vec![0x00; 65_000];
    let output = answer(&Case::given(idle()).group(1, 256, 0, &zeros).batch());
    let taken = 65_000u16.to_le_bytes();
    assert_eq!(output[..5], [0, taken[0], taken[1], 0, 0]);
}

#[test]
fn cases_follow_each_other() {
    let one = Case::started(0).group(0, 256, 0, &[0x00]).batch();
    let two = Case::given(idle()).image(0, 0xFF).batch();
    let both = [&one[..], &two, &one].concat();
    let expected = [answer(&one), answer(&two), answer(&one)].concat();
    assert_eq!(answer(&both), expected);
    assert_eq!(answer(&two), idle());
}

#[test]
fn a_case_that_is_not_well_formed_ends_the_replay() {
    let good = Case::started(0).group(0, 256, 0, &[0x00]);
    let body = good.body();
    let before = good.batch();
    let with = |bad: &[u8]| [&before[..], bad, &before].concat();
    let mut bad_ends = vec![
        // One byte short, one byte too many, nothing at all; a length over 65,536.
        with(&framed(&body[..body.len() - 1])),
        with(&framed(&[&body[..], &[0]].concat())),
        with(&framed(&[])),
        with(&65_537u32.to_le_bytes()),
        with(&u32::MAX.to_le_bytes()),
        // The input ends inside a length or a case.
        [&before[..], &[1, 0]].concat(),
        [&before[..], &before[..before.len() - 1]].concat(),
    ];
    // Numbers that the format does not have.
    for (place, value) in [(0, 2), (2, 2)] {
        let mut wrong = body.clone();
        wrong[place] = value;
        bad_ends.push(with(&framed(&wrong)));
    }
    for wrong in [
        Case::given(idle()).group(2, 256, 0, &[]),
        Case::given(idle()).group(0, 16_385, 0, &[]),
        Case::given(idle()).image(32_769, 0xFF),
    ] {
        bad_ends.push(with(&wrong.batch()));
    }
    for batch in bad_ends {
        assert_eq!(stopped(&batch), (answer(&before), 2));
    }
}
