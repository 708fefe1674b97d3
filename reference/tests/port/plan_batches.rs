//! The format of plans, with records built by hand here.

use crate::support::{answered, plan_bits, PLAN_ANSWERS, PLAN_RECORDS, RATES};
use reference::plan::Clock;
use reference::plans::replan;
use std::io::{self, Read};

/// Patterns that no fixed clock is to look at: NaNs, infinity, zeros, refused and good frequencies.
const PATTERNS: [u64; 10] = [
    0x7FF8_0000_0000_0000,
    0x7FF0_0000_0000_0001,
    0xFFFF_FFFF_FFFF_FFFF,
    0x7FF0_0000_0000_0000,
    0x0000_0000_0000_0000,
    0x8000_0000_0000_0000,
    0x413E_847F_FFFF_FFFF,
    0x4142_C000_0000_0000,
    0x415E_8480_0000_0000,
    0xC15C_2000_0000_0000,
];

fn record(clock: u8, frequency: u64, rate: u32) -> Vec<u8> {
    [&[clock][..], &frequency.to_le_bytes(), &rate.to_le_bytes()].concat()
}

/// The 18 bytes that answer this.
fn expected(clock: Clock, rate: u32) -> Vec<u8> {
    let (refusal, divider, reached, distance) = plan_bits(clock, rate);
    [
        &[refusal, divider][..],
        &reached.to_le_bytes(),
        &distance.to_le_bytes(),
    ]
    .concat()
}

fn answer(batch: &[u8]) -> Vec<u8> {
    let (output, bad) = answered(|i, o| replan(i, o), batch);
    assert_eq!(bad, None);
    output
}

/// What is written for a batch that is not well formed, and the number of the bad record.
fn stopped(batch: &[u8]) -> (Vec<u8>, u64) {
    let (output, bad) = answered(|i, o| replan(i, o), batch);
    (output, bad.expect("a bad record"))
}

/// An input that gives one byte at a time.
struct ByteByByte<'a>(&'a [u8]);

impl Read for ByteByByte<'_> {
    fn read(&mut self, buffer: &mut [u8]) -> io::Result<usize> {
        let len = buffer.len().min(1);
        self.0.read(&mut buffer[..len])
    }
}

#[test]
fn an_empty_batch() {
    assert_eq!(answer(&[]), []);
}

#[test]
fn records_byte_for_byte() {
    for (record, expected) in PLAN_RECORDS.iter().zip(PLAN_ANSWERS) {
        assert_eq!(answer(record), expected);
    }
}

#[test]
fn records_are_answered_in_order() {
    assert_eq!(answer(&PLAN_RECORDS.concat()), PLAN_ANSWERS.concat());
    for order in [[4, 3, 2, 1, 0], [2, 2, 0, 2, 4], [3, 0, 3, 1, 3]] {
        let batch = order.map(|place| PLAN_RECORDS[place]).concat();
        let expected = order.map(|place| PLAN_ANSWERS[place]).concat();
        assert_eq!(answer(&batch), expected);
    }
}

#[test]
fn an_input_may_come_in_pieces() {
    let batch = PLAN_RECORDS.concat();
    let mut output = Vec::new();
    replan(&mut ByteByByte(&batch), &mut output).unwrap();
    assert_eq!(output, PLAN_ANSWERS.concat());
}

#[test]
fn the_frequency_of_a_fixed_clock_is_not_looked_at() {
    for frequency in PATTERNS {
        for rate in RATES.into_iter().chain([0, 9601]) {
            let batch = [record(0, frequency, rate), record(1, frequency, rate)].concat();
            let fixed = [
                expected(Clock::Fixed8MHz, rate),
                expected(Clock::Fixed7_3728MHz, rate),
            ];
            assert_eq!(answer(&batch), fixed.concat());
        }
    }
}

#[test]
fn the_frequency_of_an_external_clock_is_its_pattern() {
    for frequency in PATTERNS {
        for rate in RATES.into_iter().chain([0, 9601]) {
            let clock = Clock::External(f64::from_bits(frequency));
            let answer = answer(&record(2, frequency, rate));
            assert_eq!(answer, expected(clock, rate));
        }
    }
}

#[test]
fn a_record_that_is_cut_short_ends_the_batch() {
    let before = PLAN_RECORDS.concat();
    for len in 1..13 {
        for cut in PLAN_RECORDS.map(|record| record[..len].to_vec()) {
            assert_eq!(stopped(&cut), (vec![], 1));
            let batch = [&before[..], &cut].concat();
            assert_eq!(stopped(&batch), (PLAN_ANSWERS.concat(), 6));
        }
    }
}

#[test]
fn a_clock_over_2_ends_the_batch() {
    let good = PLAN_RECORDS.concat();
    for clock in 3..=255 {
        // Well made but for its clock, and so much wrong as can be.
        for bad in [
            record(clock, 0x415E_8480_0000_0000, 9600),
            record(clock, u64::MAX, u32::MAX),
        ] {
            assert_eq!(stopped(&bad), (vec![], 1));
            let batch = [&good[..], &bad, &good].concat();
            assert_eq!(stopped(&batch), (PLAN_ANSWERS.concat(), 6));
            // Cut short as well.
            let batch = [&good[..13], &bad[..12]].concat();
            assert_eq!(stopped(&batch), (PLAN_ANSWERS[0].to_vec(), 2));
        }
    }
}
