//! Both ports get the same image, stream and buffers; every timed run is checked against the other one's.

use std::hint::black_box;
use std::time::Instant;

use reference::{run, start, Phase, Unit};

extern "C" {
    /// crates/timed: a slice goes as a pointer and a length. The declaration is held to the source by the checks below alone.
    fn pikecowl_timed_run(
        image: *mut u8,
        image_len: usize,
        bytes: *const u8,
        bytes_len: usize,
        reply: *mut u8,
        reply_len: usize,
        out: *mut u8,
        out_len: usize,
    ) -> usize;
}

const IMAGE: usize = 20_480;
const OUT: usize = 32 + 259;
const TURNS: usize = 41;

/// What a run leaves, but for the image and the area.
type Out = [u8; OUT];

#[inline(never)]
fn proved(image: &mut [u8], bytes: &[u8], area: &mut [u8], out: &mut Out) -> usize {
    // SAFETY: each pointer comes with its own slice's length, and the four do not overlap.
    unsafe {
        pikecowl_timed_run(
            image.as_mut_ptr(),
            image.len(),
            bytes.as_ptr(),
            bytes.len(),
            area.as_mut_ptr(),
            area.len(),
            out.as_mut_ptr(),
            out.len(),
        )
    }
}

#[inline(never)]
fn ordinary(image: &mut [u8], bytes: &[u8], area: &mut [u8], out: &mut Out) -> usize {
    let (_, mut unit) = start(image, 0);
    unit.phase = Phase::AtCommand;
    let answer = run(&mut unit, image, bytes, area);
    lay(&unit, out);
    out[8..12].copy_from_slice(&(answer.taken as u32).to_le_bytes());
    out[12..16].copy_from_slice(&(answer.reply_len as u32).to_le_bytes());
    out[16] = answer.refusal;
    out[17] = unit.mismatches;
    answer.taken
}

/// The unit as crates/timed lays it out.
fn lay(unit: &Unit, out: &mut Out) {
    let (tag, count) = match unit.phase {
        Phase::Asleep { zeros } => (0x00, zeros),
        Phase::AtCommand => (0x01, 0),
        Phase::InPacket { command, received } => (command.byte(), received),
    };
    out[0] = tag;
    out[1..3].copy_from_slice(&count.to_le_bytes());
    out[3] = unit.srd;
    out[4] = unit.srd1;
    out[5] = unit.blank as u8;
    out[6] = unit.protection;
    out[7] = unit.rate;
    out[32..].copy_from_slice(&unit.collected);
}

/// A stream of page programs, erased before pages come again; its last packet is cut off at the length.
fn programs(length: usize) -> Vec<u8> {
    let mut bytes = Vec::new();
    let mut page = 0;
    while bytes.len() < length {
        bytes.extend([0x41, 0xC0 + page, 0x00]);
        bytes.extend((0..=255u8).map(|k| k.wrapping_mul(7).wrapping_add(page)));
        page = (page + 1) % 63;
        if page == 0 {
            bytes.extend([0xA7, 0xD0]);
        }
    }
    bytes.truncate(length);
    bytes
}

/// A stream of page reads; its last packet is cut off at the length.
fn reads(length: usize) -> Vec<u8> {
    let pages = (0..64u8).cycle().flat_map(|page| [0xFF, 0xC0 + page, 0x00]);
    pages.take(length).collect()
}

type Port = fn(&mut [u8], &[u8], &mut [u8], &mut Out) -> usize;

struct Side {
    port: Port,
    image: Vec<u8>,
    area: Vec<u8>,
    out: Out,
    times: Vec<f64>,
}

impl Side {
    fn new(port: Port, room: usize) -> Self {
        Side {
            port,
            image: vec![0xFF; IMAGE],
            area: vec![0x00; room],
            out: [0; OUT],
            times: Vec::new(),
        }
    }

    /// One timed run on an image of FF; the area is not cleared.
    fn turn(&mut self, bytes: &[u8]) {
        self.image.fill(0xFF);
        let began = Instant::now();
        let taken = (self.port)(black_box(&mut self.image), black_box(bytes), black_box(&mut self.area), black_box(&mut self.out));
        self.times.push(began.elapsed().as_secs_f64() * 1e6);
        assert_eq!(taken, bytes.len(), "not every byte was taken");
    }

    fn best(&self) -> f64 {
        self.times.iter().copied().fold(f64::INFINITY, f64::min)
    }

    fn median(&self) -> f64 {
        let mut sorted = self.times.clone();
        sorted.sort_by(f64::total_cmp);
        sorted[sorted.len() / 2]
    }
}

fn time(name: &str, bytes: &[u8]) {
    let room = bytes.len() / 3 * 256 + 1024;
    let mut a = Side::new(ordinary, room);
    let mut b = Side::new(proved, room);
    for turn in 0..TURNS {
        if turn % 2 == 0 {
            a.turn(bytes);
            b.turn(bytes);
        } else {
            b.turn(bytes);
            a.turn(bytes);
        }
        assert_eq!(a.out[3], 0x80, "an error stands");
        assert!(a.out == b.out, "the two units or answers differ");
        assert!(a.image == b.image, "the two images differ");
        assert!(a.area == b.area, "the two reply areas differ");
    }
    let n = bytes.len() as f64;
    println!(
        "{name:>14} {:>6} bytes: ordinary best {:8.1} median {:8.1} µs ({:5.2} ns/byte); proved best {:8.1} median {:8.1} µs ({:5.2} ns/byte); ratio best {:.2} median {:.2}",
        bytes.len(),
        a.best(),
        a.median(),
        a.best() * 1e3 / n,
        b.best(),
        b.median(),
        b.best() * 1e3 / n,
        b.best() / a.best(),
        b.median() / a.median(),
    );
}

fn main() {
    println!("public run of both ports, {TURNS} turns each, sides alternated; image refilled with FF before each turn, reply areas not cleared; every turn checked");
    for length in [64, 1_024, 4_096, 65_536] {
        time("page programs", &programs(length));
        time("page reads", &reads(length));
    }
}
