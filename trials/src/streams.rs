//! The recorded streams of the real client, replayed: at once, and byte by byte with each reply awaited before the next byte.

use crate::cases::{Case, Played, CASES};
use crate::expect::{holds, names, same, stamp};
use crate::program::{read, room, write, Ended, Program};
use crate::{Done, Outcome};
use std::path::Path;

fn ended_well(case: &Case, folder: &Path, ended: &Ended, wanted: &Played) -> Result<(), String> {
    holds(
        &format!("it ended with {}", ended.status),
        ended.status.success(),
    )?;
    holds(
        &format!("it complained: {}", ended.errors),
        ended.errors.is_empty(),
    )?;
    same("replies", &ended.said, &wanted.joined())?;
    same("unit.img", &read(&folder.join("unit.img"))?, &wanted.image)?;
    let left = if case.is_refused() {
        vec!["unit.img", "unit.img.new"]
    } else {
        vec!["unit.img"]
    };
    holds(
        "files are left over, or a file was used up",
        names(folder)? == left,
    )
}

fn at_once(case: &Case, folder: &Path, program: &Program, wanted: &Played) -> Result<(), String> {
    let folder = room(folder, &format!("{}.once", case.name), case.before)?;
    // what a killed run left: overwritten where something is saved, and else left alone
    write(&folder.join("unit.img.new"), b"half an image")?;
    let image = folder.join("unit.img");
    let before = stamp(&image)?;
    let ended = program.play(&folder, &[], case.sent)?;
    ended_well(case, &folder, &ended, wanted)?;
    holds(
        "the image file was touched, or was not",
        (stamp(&image)? == before) == case.is_refused(),
    )
}

fn one_by_one(
    case: &Case,
    folder: &Path,
    program: &Program,
    wanted: &Played,
) -> Result<(), String> {
    let folder = room(folder, &format!("{}.each", case.name), case.before)?;
    write(&folder.join("unit.img.new"), b"half an image")?;
    let mut live = program.start(&folder, &["0"])?;
    let mut heard = 0;
    for (i, (&b, reply)) in case.sent.iter().zip(&wanted.replies).enumerate() {
        live.send(&[b])
            .map_err(|e| format!("byte {}: {e}", i + 1))?;
        heard += reply.len();
        holds(
            &format!("byte {} is not answered", i + 1),
            live.has_said(heard),
        )?;
        holds(
            &format!("byte {} is answered too much", i + 1),
            live.said().len() == heard,
        )?;
    }
    let ended = live.end()?;
    ended_well(case, &folder, &ended, wanted)
}

pub fn run(folder: &Path, program: &Program) -> Outcome {
    for case in &CASES {
        let wanted = case.wanted().map_err(|e| format!("{}: {e}", case.name))?;
        at_once(case, folder, program, &wanted)
            .map_err(|e| format!("{}, at once: {e}", case.name))?;
        one_by_one(case, folder, program, &wanted)
            .map_err(|e| format!("{}, byte by byte: {e}", case.name))?;
    }
    Ok(Done::Passed(format!(
        "{} recorded sessions replayed, each at once and byte by byte",
        CASES.len()
    )))
}
