//! Cases drawn from a seed: an image or a unit record, a line of bytes, and how they are grouped into calls.
//! Nothing here knows what a port answers.

use crate::case::{Beginning, Case, Group, Record, ID_PLACES, IMAGE};
use crate::line::Line;
use crate::random::Random;

const BLOCK_ENDS: [usize; 8] = [0, 2047, 2048, 4095, 4096, 12287, 12288, 20479];

fn image(random: &mut Random, id: [u8; 7]) -> Vec<u8> {
    let length = match random.below(40) {
        0 => IMAGE - 1,
        1 => IMAGE + 1,
        2 => random.of(&[0, 1, 256, 32_768]),
        _ => IMAGE,
    };
    let fill = match random.below(6) {
        0 => 0x00,
        1 => random.byte(),
        _ => 0xFF,
    };
    let mut image = vec![fill; length];
    let put = |image: &mut Vec<u8>, k: usize, b: u8| {
        if k < image.len() {
            image[k] = b;
        }
    };
    for _ in 0..random.below(4) {
        let from = random.of(&BLOCK_ENDS) + random.below(300);
        for k in from..from + random.below(40) {
            let b = random.byte();
            put(&mut image, k, b);
        }
    }
    for &k in &BLOCK_ENDS {
        if random.once_in(3) {
            let b = random.of(&[0xF0, 0x0F, 0xA5, 0x00]);
            put(&mut image, k, b);
        }
    }
    for (k, b) in ID_PLACES.into_iter().zip(id) {
        put(&mut image, k, b);
    }
    let vector = match random.below(10) {
        0 => [0xFF, 0xFF, 0xFF],
        1 => [0xFF, 0xFF, 0x00],
        2 => [0x00, 0xFF, 0xFF],
        _ => [0x00, 0xE0, 0x00],
    };
    for (k, b) in (20476..).zip(vector) {
        put(&mut image, k, b);
    }
    image
}

/// A hand-made unit record, in range or out of it in a field or two.
fn record(random: &mut Random) -> Record {
    let tag = random.of(&[0x00, 0x01, 0x01, 0xFF, 0x41, 0x49, 0x20, 0xA7, 0xF5]);
    let count = match tag {
        0x00 => random.of(&[0, 1, 15, 16, 16, 17, 255]),
        0x01 => 0,
        0xFF => random.of(&[0, 1, 1, 2]),
        0x41 => random.of(&[0, 1, 2, 100, 256, 257, 257, 258]),
        0x49 | 0xF5 => random.of(&[0, 1, 2, 3, 3, 4, 5, 10, 258, 259, 300]),
        0x20 => random.of(&[0, 1, 2, 2, 3]),
        _ => random.of(&[0, 0, 0, 1, 65_535]),
    };
    let mut collected = [0u8; 259];
    if random.once_in(2) {
        for b in collected.iter_mut() {
            *b = random.byte();
        }
    }
    collected[3] = random.of(&[0, 1, 2, 7, 254, 255, collected[3]]);
    let mut record = Record {
        tag,
        count,
        srd: random.of(&[0x80, 0x80, 0x80, 0x90, 0xA0, 0xB0]),
        srd1: random.of(&[0x0C, 0x0C, 0x0C, 0x04, 0x00]),
        blank: 0,
        protection: random.below(16) as u8,
        rate: random.below(5) as u8,
        mismatches: random.of(&[0, 0, 0, 1, 2, 3]),
        collected,
    };
    if random.once_in(4) {
        record.blank = 1;
        if random.once_in(3) {
            record.mismatches = 0;
        }
    }
    if random.once_in(4) {
        // at a command, open after three wrong ID checks: no history leads there
        record.tag = 0x01;
        record.count = 0;
        record.srd1 = 0x0C;
        record.blank = 0;
        record.mismatches = 3;
    }
    match random.below(12) {
        0 => record.srd = random.byte(),
        1 => record.srd1 = random.byte(),
        2 => record.protection = 16 + random.below(240) as u8,
        3 => record.rate = 5 + random.below(250) as u8,
        4 => record.mismatches = random.of(&[4, 4, 5, 255]),
        _ => {}
    }
    record
}

fn groups(random: &mut Random, bytes: Vec<u8>) -> Vec<Group> {
    let mut groups = Vec::new();
    let mut rest = &bytes[..];
    let runs = random.once_in(4);
    loop {
        let run = runs && random.once_in(2);
        let take = if run && random.once_in(20) {
            0
        } else if runs || random.once_in(5) {
            (1 + random.below(120)).min(rest.len())
        } else {
            rest.len()
        };
        if rest.is_empty() && !random.once_in(12) {
            return groups;
        }
        let (now, later) = rest.split_at(take);
        let area = match (run, random.below(30)) {
            (_, 0) => random.of(&[0, 1, 128, 255]),
            (true, 1..=9) => random.of(&[256, 257, 258, 300, 511, 512, 513]),
            (true, _) => random.of(&[600, 2_000, 6_000]),
            (false, 1..=4) => random.of(&[257, 300]),
            (false, _) => 256,
        };
        let fill = random.of(&[0x00, 0xEE, 0xFF]);
        let refused = area < 256;
        groups.push(Group {
            run,
            area,
            fill,
            bytes: now.to_vec(),
        });
        // what a refused group did not take comes again, as a caller would send it
        rest = if refused && random.once_in(2) {
            rest
        } else {
            later
        };
        if rest.is_empty() && groups.len() > 1 && random.once_in(2) || groups.len() > 40 {
            return groups;
        }
    }
}

pub fn case(random: &mut Random) -> Case {
    let mut id = [0x31, 0x32, 0x33, 0x34, 0x35, 0x36, 0x37];
    if random.once_in(5) {
        for b in id.iter_mut() {
            *b = random.byte();
        }
    }
    let image = image(random, id);
    let beginning = if random.once_in(8) {
        Beginning::Given(Box::new(record(random)))
    } else {
        let protection = match random.below(10) {
            0..=4 => 0,
            5..=8 => random.below(16) as u8,
            _ => random.of(&[15, 16, 17, 128, 255]),
        };
        Beginning::Start { protection }
    };
    let trace = random.once_in(50);
    let most = if trace { 70 } else { 320 };
    let mut line = Line {
        random,
        id,
        bytes: Vec::new(),
    };
    match (&beginning, line.random.below(10)) {
        (Beginning::Given(_), 0..=4) => line.tries(),
        (Beginning::Given(_), _) => {}
        (_, 0) => line.wake(),
        (_, 1 | 2) => line.surely_wake(),
        (_, 3) => {
            line.surely_wake();
            line.tries();
        }
        _ => {
            line.surely_wake();
            line.right();
        }
    }
    if line.random.once_in(5) {
        let length = 20 + line.random.below(120);
        line.alphabet(length);
    }
    let scenes = 3 + line.random.below(14);
    for _ in 0..scenes {
        if line.bytes.len() < most {
            line.scene();
        }
    }
    line.bytes.truncate(700);
    let bytes = line.bytes;
    let groups = groups(random, bytes);
    Case {
        beginning,
        trace,
        image,
        groups,
    }
}
