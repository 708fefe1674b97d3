//! Kills: `serve` is killed at random moments of a programming session. What is then in unit.img is the image after packet j or
//! j + 1, j being the last packet whose following 70 was answered; and the next start goes on from there.

use crate::cases::play;
use crate::expect::{holds, names, same};
use crate::program::{read, room, write, Live, Program};
use crate::random::Random;
use crate::{Done, Options, Outcome};
use std::path::Path;
use std::time::{Duration, Instant};

/// Packets of the session, each of which changes the image.
const PACKETS: usize = 24;
/// Of the kills, at least so many of a hundred are to fall between a packet's last byte and the answer.
const BETWEEN: usize = 20;

const WAKE: [u8; 17] = [0, 0, 0, 0, 0, 0, 0, 0, 0, 0, 0, 0, 0, 0, 0, 0, 0xB0];
const STATUS: u8 = 0x70;
/// Ready, no error; open.
const GOOD: [u8; 2] = [0x80, 0x0C];
const ID_OFFSETS: [usize; 7] = [20_447, 20_451, 20_459, 20_463, 20_467, 20_471, 20_475];

/// A session: it opens the unit, then changes the image packet by packet.
struct Session {
    opening: Vec<u8>,
    opened: Vec<u8>,
    packets: Vec<Vec<u8>>,
    /// The image at the start, and after each packet.
    images: Vec<Vec<u8>>,
}

fn id_check(image: &[u8]) -> Vec<u8> {
    let mut packet = vec![0xF5, 0xDF, 0xFF, 0x00, 0x07];
    packet.extend(ID_OFFSETS.map(|at| image[at]));
    packet
}

/// A program of a page, or of a few bytes of it, on erased flash of one of these blocks.
fn program(random: &mut Random, blocks: &[usize]) -> Vec<u8> {
    let (first, pages) = [(0x20, 8), (0x28, 8), (0xC0, 32), (0xE0, 32)][random.of(blocks)];
    let mid = first + random.below(pages) as u8;
    let (mut packet, n) = if random.below(4) == 0 {
        let n = 1 + random.below(40);
        (vec![0x49, random.byte() / 2, mid, 0x00, n as u8], n)
    } else {
        (vec![0x41, mid, 0x00], 256)
    };
    packet.extend((0..n).map(|_| random.byte()));
    packet
}

/// Packet k: both program blocks are erased, as the real client does. Then, over and over, all is erased, and something is written
/// near the image's start and near its end, so that the next erase changes bytes that lie far apart: a torn save shows.
fn draw(random: &mut Random, k: usize) -> Vec<u8> {
    match k {
        0 => vec![0x20, 0xE0, 0x00, 0xD0],
        1 => vec![0x20, 0xC0, 0x00, 0xD0],
        _ => match k % 3 {
            2 => vec![0xA7, 0xD0],
            0 => program(random, &[0, 1]),
            _ => program(random, &[2, 3, 3]),
        },
    }
}

impl Session {
    fn draw(random: &mut Random) -> Result<Session, String> {
        let mut image: Vec<u8> = (0..20_480).map(|_| random.byte()).collect();
        image[20_476] = 0x00;
        let mut opening = WAKE.to_vec();
        opening.extend(id_check(&image));
        opening.push(STATUS);
        let opened = vec![0xB0, GOOD[0], GOOD[1]];
        let mut bytes = opening.clone();
        let mut packets: Vec<Vec<u8>> = Vec::new();
        let mut images = vec![image];
        while packets.len() < PACKETS {
            let packet = draw(random, packets.len());
            let next = [&bytes[..], &packet, &[STATUS]].concat();
            let played = play(&images[0], 0, &next)?;
            // only a packet that is carried out with no error, and that changes the image
            if played.image != images[packets.len()] && played.joined().ends_with(&GOOD) {
                bytes = next;
                packets.push(packet);
                images.push(played.image);
            }
        }
        let wanted = play(&images[0], 0, &bytes)?.joined();
        let replies = [&opened[..], &GOOD.repeat(PACKETS)].concat();
        same(
            "the session's replies by the second program",
            &wanted,
            &replies,
        )?;
        Ok(Session {
            opening,
            opened,
            packets,
            images,
        })
    }

    /// What has been said after this many packets.
    fn replies(&self, packets: usize) -> Vec<u8> {
        [&self.opened[..], &GOOD.repeat(packets)].concat()
    }

    /// The last packet whose 70 was answered, as a number of packets.
    fn answered(&self, said: &[u8]) -> usize {
        said.len().saturating_sub(self.opened.len()) / GOOD.len()
    }

    /// Packet k and the 70 after it.
    fn asked(&self, k: usize) -> Vec<u8> {
        [&self.packets[k][..], &[STATUS]].concat()
    }

    /// Opens the unit and has the first n packets answered one by one; how long each took.
    fn open(&self, live: &mut Live, n: usize) -> Result<Vec<Duration>, String> {
        live.send(&self.opening)?;
        holds(
            &format!("the opening is not answered: {}", live.errors()),
            live.has_said(self.opened.len()),
        )?;
        let mut times = Vec::new();
        for k in 0..n {
            let began = Instant::now();
            live.send(&self.asked(k))?;
            let answered = live.has_said(self.opened.len() + GOOD.len() * (k + 1));
            holds(
                &format!("packet {} is not answered: {}", k + 1, live.errors()),
                answered,
            )?;
            times.push(began.elapsed());
        }
        Ok(times)
    }
}

/// Waits, to the microsecond; a long wait leaves the processor to the program.
fn pause(time: Duration) {
    let until = Instant::now() + time;
    if let Some(long) = time.checked_sub(Duration::from_micros(100)) {
        std::thread::sleep(long);
    }
    while Instant::now() < until {
        std::hint::spin_loop();
    }
}

fn part_of(random: &mut Random, time: Duration) -> Duration {
    Duration::from_nanos(random.next() % (time.as_nanos() as u64).max(1))
}

/// The session without a kill: how long an answer takes, and that all is stored at its end.
fn calibrate(session: &Session, folder: &Path, program: &Program) -> Result<Duration, String> {
    let folder = room(folder, "whole", &session.images[0])?;
    let mut live = program.start(&folder, &[])?;
    let mut times = session.open(&mut live, PACKETS)?;
    let ended = live.end()?;
    holds(
        &format!("it complained: {}", ended.errors),
        ended.errors.is_empty() && ended.status.success(),
    )?;
    same("replies", &ended.said, &session.replies(PACKETS))?;
    same(
        "unit.img",
        &read(&folder.join("unit.img"))?,
        &session.images[PACKETS],
    )?;
    times.sort();
    Ok(times[times.len() / 2])
}

#[derive(Clone, Copy)]
enum Moment {
    /// A packet's bytes and the 70 are sent: somewhere before the answer, or a little after it.
    AtAnswer,
    /// A part of a packet is sent.
    InPacket,
    /// All the rest of the session is sent at once: anywhere in it.
    Anywhere,
}

/// The longest wait before a kill at an answer. It follows what is seen, so that about three of four such kills come before the
/// answer and one after it, on a slow machine too.
struct Reach(Duration);

impl Reach {
    fn heard(&mut self, answered: bool) {
        let next = self.0.mul_f64(if answered { 0.75 } else { 1.1 });
        self.0 = next.clamp(Duration::from_micros(20), Duration::from_secs(5));
    }
}

#[derive(Default)]
struct Tally {
    between_old: usize,
    between_new: usize,
    after: usize,
    in_packet: usize,
    anywhere: usize,
    half_saved: usize,
}

/// What a series of kills is made of.
struct Series<'a> {
    session: &'a Session,
    folder: &'a Path,
    program: &'a Program,
    typical: Duration,
    reach: Reach,
    random: Random,
    tally: Tally,
}

/// A killed run: whether what it left is right, counted by where it fell.
fn kill(series: &mut Series, moment: Moment) -> Result<(), String> {
    let Series {
        session,
        folder,
        program,
        typical,
        reach,
        random,
        tally,
    } = series;
    write(&folder.join("unit.img"), &session.images[0])?;
    let at = random.below(PACKETS);
    let mut live = program.start(folder, &[])?;
    session.open(&mut live, at)?;
    let sent = match moment {
        Moment::AtAnswer => {
            let bytes = session.asked(at);
            let delay = part_of(random, reach.0);
            live.send(&bytes)?;
            pause(delay);
            at + 1
        }
        Moment::InPacket => {
            let packet = &session.packets[at];
            let some = random.below(packet.len());
            let delay = part_of(random, Duration::from_millis(1));
            live.send(&packet[..some])?;
            pause(delay);
            at
        }
        Moment::Anywhere => {
            let bytes: Vec<u8> = (at..PACKETS).flat_map(|k| session.asked(k)).collect();
            let delay = part_of(random, *typical * (PACKETS - at) as u32);
            live.send(&bytes)?;
            pause(delay);
            PACKETS
        }
    };
    let ended = live.kill()?;
    let answered = session.answered(&ended.said);
    same("replies", &ended.said, &session.replies(answered))?;
    holds(
        &format!("{answered} packets answered, {at} awaited and {sent} sent"),
        at <= answered && answered <= sent,
    )?;
    holds(
        &format!("it complained: {}", ended.errors),
        ended.errors.is_empty(),
    )?;
    let image = read(&folder.join("unit.img"))?;
    let old = image == session.images[answered];
    let new = answered < sent && image == session.images[answered + 1];
    if !old && !new {
        let like = session.images.iter().position(|i| *i == image);
        let what = like.map_or("no image of the session".to_string(), |k| {
            format!("the image after packet {k}")
        });
        return Err(format!(
            "{answered} packets answered of {sent} sent, and unit.img ({} bytes) is {what}",
            image.len()
        ));
    }
    match moment {
        Moment::AtAnswer if answered == at && old => tally.between_old += 1,
        Moment::AtAnswer if answered == at => tally.between_new += 1,
        Moment::AtAnswer => tally.after += 1,
        Moment::InPacket => tally.in_packet += 1,
        Moment::Anywhere => tally.anywhere += 1,
    }
    if let Moment::AtAnswer = moment {
        reach.heard(answered > at);
    }
    tally.half_saved += usize::from(names(folder)?.iter().any(|n| n == "unit.img.new"));
    again(folder, program, &image)
}

/// The next start, whatever the kill left: it answers by the image alone, and saves over a new file that was left.
fn again(folder: &Path, program: &Program, image: &[u8]) -> Result<(), String> {
    let mut bytes = WAKE.to_vec();
    bytes.extend(id_check(image));
    bytes.extend([
        STATUS, 0xFF, 0xE0, 0x00, 0x20, 0xE0, 0x00, 0xD0, 0x49, 0x00, 0xE0, 0x00, 0x01, 0x5A,
        STATUS,
    ]);
    let wanted = play(image, 0, &bytes)?;
    let ended = program.play(folder, &[], &bytes)?;
    holds(
        &format!("the next run complained: {}", ended.errors),
        ended.errors.is_empty(),
    )?;
    same("the next run's replies", &ended.said, &wanted.joined())?;
    same(
        "unit.img after the next run",
        &read(&folder.join("unit.img"))?,
        &wanted.image,
    )?;
    holds(
        "the next run left files over",
        names(folder)? == ["unit.img"],
    )
}

pub fn run(folder: &Path, program: &Program, options: &Options) -> Outcome {
    let seed = options.seed;
    let mut random = Random::new(seed);
    let session = Session::draw(&mut random)?;
    let typical = calibrate(&session, folder, program)
        .map_err(|e| format!("seed {seed}, the session without a kill: {e}"))?;
    let room = room(folder, "killed", &session.images[0])?;
    let mut series = Series {
        session: &session,
        folder: &room,
        program,
        typical,
        reach: Reach(typical),
        random,
        tally: Tally::default(),
    };
    for number in 1..=options.kills {
        let moment = match number % 5 {
            0 => Moment::InPacket,
            1 => Moment::Anywhere,
            _ => Moment::AtAnswer,
        };
        kill(&mut series, moment).map_err(|e| format!("seed {seed}, kill {number}: {e}"))?;
    }
    let tally = &series.tally;
    let between = tally.between_old + tally.between_new;
    let text = format!(
        "{} kills, seed {seed}: {between} between a packet's last byte and its answer ({} with the old image, {} with the new), \
         {} just after it, {} inside a packet, {} anywhere; {} left a new file; an answer takes {} us",
        options.kills,
        tally.between_old,
        tally.between_new,
        tally.after,
        tally.in_packet,
        tally.anywhere,
        tally.half_saved,
        typical.as_micros()
    );
    holds(
        &format!("too few kills fell between: {text}"),
        between * 100 >= BETWEEN * options.kills,
    )?;
    Ok(Done::Passed(text))
}
