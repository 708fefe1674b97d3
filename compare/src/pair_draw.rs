//! Pairs drawn from a seed: two images with the same seven ID bytes and little else in common, and one stream of bytes that is cut into calls in two ways.

use crate::case::{Beginning, Case, Group, ID_PLACES, IMAGE};
use crate::line::Line;
use crate::random::Random;
use crate::reading::{self, Reading};
use crate::watch::{stored_id, Watch};

/// A case, and how it is meant to go.
pub struct Side {
    pub case: Case,
    /// For each call, how many bytes of the stream are taken after it.
    pub ends: Vec<usize>,
}

pub struct Pair {
    pub stream: Vec<u8>,
    pub sides: [Side; 2],
}

impl Pair {
    /// What the stream is to both units as long as they have not opened.
    pub fn reading(&self, watch: &mut Watch) -> Reading {
        let stored = stored_id(&self.sides[0].case.image);
        reading::read(&self.stream, &stored, watch)
    }
}

fn id(random: &mut Random) -> [u8; 7] {
    match random.below(6) {
        0 => [random.of(&[0x00, 0xFF, 0xF5]); 7],
        1 | 2 => [0x31, 0x32, 0x33, 0x34, 0x35, 0x36, 0x37],
        _ => [0; 7].map(|_| random.byte()),
    }
}

fn noise(random: &mut Random, n: usize) -> Vec<u8> {
    (0..n).map(|_| random.byte()).collect()
}

/// The second image differs from the first at nearly every place that does not hold an ID byte.
fn images(random: &mut Random, id: [u8; 7]) -> [Vec<u8>; 2] {
    let first = match random.below(4) {
        0 => vec![random.of(&[0x00, 0xFF]); IMAGE],
        _ => noise(random, IMAGE),
    };
    let second = match random.below(3) {
        0 => noise(random, IMAGE),
        _ => first.iter().map(|b| !b).collect(),
    };
    [first, second].map(|mut image| {
        for (k, b) in ID_PLACES.into_iter().zip(id) {
            image[k] = b;
        }
        if image[20476..20479] == [0xFF; 3] || random.once_in(3) {
            let vector = random.of(&[[0xFF, 0xFF, 0x00], [0x7F, 0xFF, 0xFF], [0xFF, 0xFE, 0xFF]]);
            image[20476..20479].copy_from_slice(&vector);
        }
        image
    })
}

/// A wrong ID packet; some give what the flash of one of the two holds elsewhere.
fn wrong(line: &mut Line, images: &[Vec<u8>; 2]) {
    if !line.random.once_in(3) {
        return line.wrong();
    }
    let image = &images[line.random.below(2)];
    let (at, step) = line
        .random
        .of(&[(0, 1), (20_446, 1), (20_447, 1), (20_448, 4), (20_473, 1)]);
    let data: Vec<u8> = (0..7).map(|k| image[at + k * step]).collect();
    line.id_packet([0xDF, 0xFF, 0x00], &data);
}

/// Bytes for a closed unit: taken, dropped, unknown, and what would follow a dropped one.
fn closed_scene(line: &mut Line) {
    match line.random.below(10) {
        0..=2 => {
            let b = line.random.of(&[0x70, 0xFB]);
            line.bytes.push(b);
        }
        3..=6 => line.short(),
        7 | 8 => line.open_packet(),
        _ => {
            let n = line.random.below(6);
            let bytes = noise(line.random, n);
            line.bytes.extend(bytes);
        }
    }
}

fn closed_scenes(line: &mut Line, most: usize) {
    for _ in 0..line.random.below(most) {
        closed_scene(line);
    }
}

/// A stream: awake or not, wrong ID packets or none, the right one or not, and more.
fn stream(random: &mut Random, id: [u8; 7], images: &[Vec<u8>; 2]) -> Vec<u8> {
    let bytes = Vec::new();
    let mut line = Line { random, id, bytes };
    match line.random.below(10) {
        0 => line.alphabet(40),
        1 | 2 => line.wake(),
        _ => line.surely_wake(),
    }
    if line.random.once_in(10) {
        line.alphabet(80);
    }
    closed_scenes(&mut line, 6);
    for _ in 0..line.random.of(&[0, 0, 0, 1, 1, 2, 2, 3, 4]) {
        wrong(&mut line, images);
        closed_scenes(&mut line, 3);
    }
    if !line.random.once_in(6) {
        line.right();
        for _ in 0..line.random.below(4) {
            line.scene();
        }
    }
    line.bytes
}

/// Half of the streams that open the unit end at the opening byte or before it; many of the others are cut off too.
fn end(random: &mut Random, stream: &mut Vec<u8>, reading: &Reading) {
    let most = match (reading.opens, random.below(8)) {
        (true, 0..=2) => reading.len(),
        (true, 3) | (false, 0..=2) => random.below(reading.len() + 1),
        _ => 500,
    };
    stream.truncate(most);
}

/// How a side's calls are drawn.
#[derive(Clone, Copy)]
enum Style {
    Bytes,
    Runs,
    Mixed,
}

fn area(random: &mut Random, run: bool) -> u16 {
    match (run, random.below(40)) {
        (_, 0..=2) => random.of(&[0, 1, 128, 255]),
        (_, 3) => random.of(&[2_000, 6_000, 16_384]),
        (true, 4..=24) => 256 + random.below(12) as u16,
        (true, _) => 256 + random.below(300) as u16,
        (false, 4..=9) => random.of(&[257, 300, 512]),
        (false, _) => 256,
    }
}

/// Cuts a stream into calls, all of it taken: what a refused call or a run without room leaves comes again.
fn cut(
    random: &mut Random,
    stream: &[u8],
    reading: &Reading,
    style: Style,
) -> (Vec<Group>, Vec<usize>) {
    let (mut groups, mut ends) = (Vec::new(), Vec::new());
    let mut at = 0;
    loop {
        let left = stream.len() - at;
        if left == 0 && !random.once_in(8) {
            return (groups, ends);
        }
        let run = match style {
            Style::Bytes => false,
            Style::Runs => true,
            Style::Mixed => random.once_in(2),
        };
        let area = area(random, run);
        let long = match random.below(12) {
            0 if run => 0,
            1..=5 => random.below(4) + 1,
            6 if run => left,
            // a byte call's area is answered whole for each byte
            _ if run || area < 1_000 => random.below(40) + 1,
            _ => 1,
        };
        let end = at + long.min(left);
        groups.push(Group {
            run,
            area,
            fill: random.byte(),
            bytes: stream[at..end].to_vec(),
        });
        if run {
            at += reading.taken(at, end, area as usize);
            ends.push(at);
        } else if area < 256 {
            ends.extend(vec![at; end - at]);
        } else {
            ends.extend(at + 1..=end);
            at = end;
        }
    }
}

pub fn pair(random: &mut Random) -> Pair {
    let id = id(random);
    let images = images(random, id);
    let mut stream = stream(random, id, &images);
    let stored = stored_id(&images[0]);
    let reading = reading::read(&stream, &stored, &mut Watch::default());
    end(random, &mut stream, &reading);
    let trace = random.once_in(20);
    if trace {
        stream.truncate(70);
    }
    let mut styles = random.of(&[
        [Style::Bytes, Style::Mixed],
        [Style::Bytes, Style::Runs],
        [Style::Bytes, Style::Runs],
        [Style::Mixed, Style::Mixed],
        [Style::Mixed, Style::Runs],
        [Style::Runs, Style::Runs],
    ]);
    if random.once_in(2) {
        styles.reverse();
    }
    let mut styles = styles.into_iter();
    let sides = images.map(|image| {
        let style = styles.next().expect("a style for each side");
        let (groups, ends) = cut(random, &stream, &reading, style);
        let beginning = Beginning::Start {
            protection: random.below(16) as u8,
        };
        let case = Case {
            beginning,
            trace,
            image,
            groups,
        };
        Side { case, ends }
    });
    Pair { stream, sides }
}

#[cfg(test)]
mod tests {
    use super::*;

    #[test]
    fn the_images_share_the_id_alone() {
        let mut random = Random::new(1);
        for _ in 0..50 {
            let id = id(&mut random);
            let [here, there] = images(&mut random, id);
            assert_eq!((here.len(), there.len()), (IMAGE, IMAGE));
            assert_eq!(ID_PLACES.map(|k| here[k]), id);
            assert_eq!(ID_PLACES.map(|k| there[k]), id);
            assert_ne!(here[20476..20479], [0xFF; 3]);
            assert_ne!(there[20476..20479], [0xFF; 3]);
            let same = (0..IMAGE).filter(|&k| here[k] == there[k]).count();
            assert!(same < 200, "{same} places are the same");
        }
    }

    #[test]
    fn both_cuts_take_the_whole_stream() {
        let mut random = Random::new(2);
        for _ in 0..200 {
            let pair = pair(&mut random);
            let mut bytes = Vec::new();
            for side in &pair.sides {
                side.case.lay(&mut bytes);
                let (mut at, mut ends) = (0, side.ends.iter());
                for group in &side.case.groups {
                    assert!(pair.stream[at..].starts_with(&group.bytes));
                    for _ in 0..crate::case::calls(group) {
                        at = *ends.next().expect("an end for each call");
                    }
                }
                assert_eq!((at, ends.next()), (pair.stream.len(), None));
            }
        }
    }
}
