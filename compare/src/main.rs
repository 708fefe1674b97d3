//! Holds the proved port, or the proved planner, to the independent second program: both answer the same cases, and the answers are compared byte for byte. And holds the proved port to itself, on pairs of images.

use std::path::PathBuf;
use std::process::ExitCode;
use std::time::Instant;

mod answer;
mod case;
mod draw;
mod events;
mod line;
mod pair_draw;
mod pair_history;
mod pair_judge;
mod pairs;
mod plan_draw;
mod plan_rows;
mod plans;
mod programs;
mod random;
mod reading;
mod sessions;
mod watch;

use case::Case;
use programs::Programs;
use random::Random;
use watch::Watch;

/// Cases to a batch.
const BATCH: usize = 250;

const USAGE: &str = "usage: compare [plans] CASES SEED FOLDER PORT.. -- REFERENCE..\n\
    CASES cases are drawn from the number SEED and given to both commands in batches; FOLDER holds the files in between.\n\
    Before them the twelve sessions of document 01, with document 02's Items 3 and 5, are played and held to typed values.\n\
    With 'plans' the cases are clocks and rates for the planner (Item 7), and typed plans and a source's table come before them.\n\
    usage: compare pairs PAIRS SEED FOLDER PORT..\n\
    PAIRS pairs of cases are drawn from the number SEED: two images with the same ID, the same bytes by different calls. The port's two answers are compared, up to the byte that opens the unit (demand 3).";

/// What both programs answer to these cases.
fn ask(programs: &Programs, cases: &[Case]) -> Result<(Vec<u8>, Vec<u8>), String> {
    programs.ask(&case::lay_all(cases))
}

/// Says where two answers to a case first differ.
fn tell_difference(seed: u64, number: usize, case: &Case, port: &[u8], reference: &[u8]) {
    println!("DIFFERENCE: seed {seed}, case {number}");
    let (mut p, mut r) = (port, reference);
    let (Some(p), Some(r)) = (answer::take(case, &mut p), answer::take(case, &mut r)) else {
        println!(
            "  an answer is too short: port {} bytes, reference {} bytes",
            port.len(),
            reference.len()
        );
        return;
    };
    if p.start != r.start {
        println!(
            "  start: port {:02X?}\n  reference {:02X?}",
            p.start, r.start
        );
        return;
    }
    for (a, b) in p.calls.iter().zip(&r.calls) {
        let told = |c: &answer::Call| {
            format!(
                "refusal {}, taken {}, reply {:02X?}, SRD {:02X}, SRD1 {:02X}",
                c.refusal,
                c.taken,
                c.reply(),
                c.srd,
                c.srd1
            )
        };
        if told(a) != told(b) || a.area != b.area || a.image != b.image {
            println!(
                "  group {}, byte {} ({:02X?})",
                a.group,
                a.byte + 1,
                case.groups[a.group].bytes.get(a.byte)
            );
            println!("  port:      {}", told(a));
            println!("  reference: {}", told(b));
            if told(a) == told(b) {
                println!("  the reply areas or the images differ");
            }
            return;
        }
    }
    println!(
        "  the unit or the image at the end: port {:02X?}, reference {:02X?}",
        &p.record[..9],
        &r.record[..9]
    );
    if let Some(k) = (0..p.image.len()).find(|&k| p.image[k] != r.image[k]) {
        println!(
            "  image byte {k}: port {:02X}, reference {:02X}",
            p.image[k], r.image[k]
        );
    }
}

/// The two programs' answers to each case, and whether bytes follow the last of them.
fn by_case<'a>(
    cases: &[Case],
    mut port: &'a [u8],
    mut reference: &'a [u8],
) -> (Vec<(&'a [u8], &'a [u8])>, bool) {
    let mut pairs = Vec::new();
    for case in cases {
        let n = case.answer_len();
        let (p, r) = (
            port.split_at(n.min(port.len())),
            reference.split_at(n.min(reference.len())),
        );
        pairs.push((p.0, r.0));
        (port, reference) = (p.1, r.1);
    }
    (pairs, !port.is_empty() || !reference.is_empty())
}

fn play_sessions(programs: &Programs) -> Result<bool, String> {
    let sessions = sessions::all();
    let cases: Vec<Case> = sessions.iter().map(|s| s.case.clone()).collect();
    let (port, reference) = ask(programs, &cases)?;
    let (pairs, more) = by_case(&cases, &port, &reference);
    let mut good = !more;
    if more {
        println!("sessions: bytes after the last answer");
    }
    for (session, (here, there)) in sessions.iter().zip(pairs) {
        if here != there {
            println!("session {}: the two programs' answers differ", session.name);
            good = false;
        }
        for (who, mut bytes) in [("port", here), ("reference", there)] {
            let fault = match answer::take(&session.case, &mut bytes) {
                Some(answer) => session.fault(&answer),
                None => Some("no answer".to_string()),
            };
            if let Some(fault) = fault {
                println!("session {}: {who}: {fault}", session.name);
                good = false;
            }
        }
    }
    println!(
        "sessions: {} rows of document 01's twelve sessions and of document 02's Items 3 and 5, by both programs",
        sessions.len()
    );
    Ok(good)
}

fn compare(programs: &Programs, count: usize, seed: u64) -> Result<bool, String> {
    let mut good = play_sessions(programs)?;
    let mut random = Random::new(seed);
    let mut watch = Watch::default();
    let began = Instant::now();
    let mut done = 0;
    while done < count {
        let cases: Vec<Case> = (0..BATCH.min(count - done))
            .map(|_| draw::case(&mut random))
            .collect();
        let (port, reference) = ask(programs, &cases)?;
        let (pairs, more) = by_case(&cases, &port, &reference);
        for (k, (case, (here, mut there))) in cases.iter().zip(pairs).enumerate() {
            if here != there {
                tell_difference(seed, done + k, case, here, there);
                return Ok(false);
            }
            match answer::take(case, &mut there) {
                Some(answer) => watch.follow(case, &answer),
                None => {
                    return Err(format!(
                        "seed {seed}, case {}: both answers are too short",
                        done + k
                    ))
                }
            }
        }
        if more {
            println!("DIFFERENCE: seed {seed}, batch at case {done}: bytes after the last answer");
            return Ok(false);
        }
        done += cases.len();
        if done % (BATCH * 20) == 0 {
            eprintln!(
                "{done} of {count} cases agree, {} s",
                began.elapsed().as_secs()
            );
        }
    }
    let enough = watch.report();
    good &= enough || count < 3_000;
    println!(
        "compared {count} cases from seed {seed}: no difference, {} s",
        began.elapsed().as_secs()
    );
    Ok(good)
}

fn main() -> ExitCode {
    let mut args: Vec<String> = std::env::args().skip(1).collect();
    let mode = match args.first().map(String::as_str) {
        Some("plans" | "pairs") => args.remove(0),
        _ => String::new(),
    };
    let split = args.iter().position(|a| a == "--").unwrap_or(args.len());
    let reference = args.get(split + 1..).unwrap_or_default().to_vec();
    // pairs have no second program, the others do
    let fit = split >= 4 && reference.is_empty() == (mode == "pairs");
    let (true, Some(Ok(count)), Some(Ok(seed))) = (
        fit,
        args.first().map(|a| a.parse::<usize>()),
        args.get(1).map(|a| a.parse::<u64>()),
    ) else {
        eprintln!("{USAGE}");
        return ExitCode::from(2);
    };
    let programs = Programs {
        folder: PathBuf::from(&args[2]),
        port: args[3..split].to_vec(),
        reference,
    };
    let done = match mode.as_str() {
        "plans" => plans::compare(&programs, count, seed),
        "pairs" => pairs::compare(&programs, count, seed),
        _ => compare(&programs, count, seed),
    };
    match done {
        Ok(true) => ExitCode::SUCCESS,
        Ok(false) => ExitCode::from(1),
        Err(why) => {
            eprintln!("compare: {why}");
            ExitCode::from(1)
        }
    }
}
