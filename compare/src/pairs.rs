//! Holds the port to itself (demand 3): two units on images that share the seven ID bytes, with any two protections, take the same bytes by different calls, and answer alike up to the byte that opens them.

use crate::answer::{self, Answer};
use crate::case::lay_all;
use crate::events::Events;
use crate::pair_draw::{self, Pair};
use crate::pair_history::{history, History};
use crate::pair_judge::{difference, PROTECTION};
use crate::programs::Programs;
use crate::random::Random;
use crate::reading::Reading;
use crate::watch::{stored_id, Watch};

/// Pairs to a batch.
const BATCH: usize = 125;

/// What a run of the gate's length has to meet, before the opening byte or at it. They are counted by pairs.
const WANTED: &[&str] = &[
    "asleep: 00",
    "asleep: B0 wakes",
    "asleep: B0 too early",
    "asleep: other",
    "FF closed: dropped",
    "41 closed: dropped",
    "49 closed: dropped",
    "20 closed: dropped",
    "A7 closed: dropped",
    "50 closed: dropped",
    "70 closed: taken",
    "FB closed: taken",
    "B0 closed: taken",
    "B1 closed: taken",
    "B2 closed: taken",
    "B3 closed: taken",
    "B4 closed: taken",
    "00 closed: taken",
    "B5 closed: unknown",
    "75 closed: unknown",
    "F5 closed: right after 0 wrong",
    "F5 closed: right after 1 wrong",
    "F5 closed: right after 2 wrong",
    "F5 closed: wrong after 0 wrong",
    "F5 closed: wrong after 1 wrong",
    "F5 closed: wrong after 2 wrong",
    "F5 closed: the stored ID after 3 wrong",
    "F5 closed: another after 3 wrong",
    "wrong ID: another address",
    "wrong ID: size 0",
    "wrong ID: size 6",
    "wrong ID: size 7",
    "wrong ID: size 255",
    "wrong ID: what the flash holds elsewhere",
    "byte: refusal 0",
    "byte: refusal 3",
    "run: refusal 0",
    "run: refusal 3",
    "run: empty",
    "run: stopped for room",
    "run: over the opening byte",
    "70: by two byte calls",
    "70: by a byte call and by a run",
    "70: by two runs",
    "FB: by two byte calls",
    "FB: by a byte call and by a run",
    "FB: by two runs",
    "cut on one side alone: asleep",
    "cut on one side alone: among the zeros",
    "cut on one side alone: at a command",
    "cut on one side alone: inside an ID packet",
    "protections: differ",
    "image: seen after every call",
    "end: closed, asleep",
    "end: closed, among the zeros",
    "end: closed, at a command",
    "end: closed, inside an ID packet",
    "end: at the opening byte",
    "end: past the opening byte",
];

/// Counts the stream's ID packets that are wrong, by what is wrong with them.
fn note_packets(watch: &mut Watch, pair: &Pair, reading: &Reading) {
    let images = pair.sides.each_ref().map(|side| &side.case.image);
    let stored = stored_id(images[0]);
    for got in &reading.packets {
        let data = &got[4..];
        if got[..3] != stored[..3] {
            watch.note("wrong ID: another address");
        } else if *got != stored {
            watch.note(format!("wrong ID: size {}", data.len()));
            let stands = |image: &Vec<u8>| image.windows(7).any(|part| part == data);
            if data.len() == 7 && images.into_iter().any(stands) {
                watch.note("wrong ID: what the flash holds elsewhere");
            }
        }
    }
}

/// Counts how the two sides' cuts differ, and where the stream ends.
fn note_cuts(watch: &mut Watch, pair: &Pair, reading: &Reading, histories: &[History; 2]) {
    let [here, there] = histories.each_ref().map(|history| {
        let mut cut = vec![false; reading.len() + 1];
        for p in &history.points {
            if let Some(mark) = cut.get_mut(p.taken) {
                *mark = true;
            }
        }
        cut
    });
    let [first, second] = histories;
    for (k, &(reply, after)) in reading.bytes.iter().enumerate() {
        if here[k + 1] != there[k + 1] {
            watch.note(format!("cut on one side alone: {after}"));
        }
        if reply > 1 {
            let by = match (first.by_run[k], second.by_run[k]) {
                (true, true) => "two runs",
                (false, false) => "two byte calls",
                _ => "a byte call and by a run",
            };
            watch.note(format!("{:02X}: by {by}", pair.stream[k]));
        }
    }
    for history in histories {
        if history.by_run.len() > reading.len() {
            watch.note("run: over the opening byte");
        }
    }
    watch.note(match (reading.opens, reading.bytes.last()) {
        (true, _) if pair.stream.len() > reading.len() => "end: past the opening byte".into(),
        (true, _) => "end: at the opening byte".into(),
        (false, Some((_, after))) => format!("end: closed, {after}"),
        (false, None) => "end: no byte".into(),
    });
}

/// Judges a pair by the port's answers, and counts what it met. The answers are taken off the front of the bytes.
fn judge(watch: &mut Watch, pair: &Pair, bytes: &mut &[u8]) -> Option<String> {
    let mut take = |k: usize| answer::take(&pair.sides[k].case, bytes);
    let (Some(first), Some(second)) = (take(0), take(1)) else {
        return Some("an answer is too short".to_string());
    };
    let mut answers: [Answer; 2] = [first, second];
    let reading = pair.reading(watch);
    let histories = [0, 1].map(|k| history(&pair.sides[k], &answers[k], &reading));
    let found = difference(pair, &reading, &answers, &histories);
    if found.is_some() {
        return found;
    }
    for k in [0, 1] {
        answers[k].calls.truncate(histories[k].points.len() - 1);
        watch.refusals(&pair.sides[k].case, &answers[k]);
    }
    let starts = answers
        .each_ref()
        .map(|a| a.start.expect("a start has an answer").1);
    if starts[0][PROTECTION] != starts[1][PROTECTION] {
        watch.note("protections: differ");
    }
    if pair.sides[0].case.trace {
        watch.note("image: seen after every call");
    }
    note_packets(watch, pair, &reading);
    note_cuts(watch, pair, &reading, &histories);
    None
}

pub fn compare(programs: &Programs, count: usize, seed: u64) -> Result<bool, String> {
    let mut random = Random::new(seed);
    let mut events = Events::default();
    let mut done = 0;
    while done < count {
        let pairs: Vec<Pair> = (0..BATCH.min(count - done))
            .map(|_| pair_draw::pair(&mut random))
            .collect();
        let cases = pairs
            .iter()
            .flat_map(|pair| &pair.sides)
            .map(|side| &side.case);
        let answers = programs.ask_port(&lay_all(cases))?;
        let mut rest = &answers[..];
        for (k, pair) in pairs.iter().enumerate() {
            let mut watch = Watch::default();
            if let Some(found) = judge(&mut watch, pair, &mut rest) {
                println!("DIFFERENCE: seed {seed}, pair {}: {found}", done + k);
                println!("  the stream: {:02X?}", pair.stream);
                return Ok(false);
            }
            events.note_met(watch.events);
        }
        if !rest.is_empty() {
            println!("DIFFERENCE: seed {seed}, batch at pair {done}: bytes after the last answer");
            return Ok(false);
        }
        done += pairs.len();
    }
    let enough = events.report(WANTED);
    println!("compared {count} pairs from seed {seed}: no difference");
    Ok(enough || count < 1_000)
}
