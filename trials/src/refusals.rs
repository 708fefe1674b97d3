//! What `serve` refuses, and what it does where a save fails: one line on standard error, nothing said, nothing written.

use crate::cases::{play, CASES};
use crate::expect::{holds, names, one_line, same, stamp};
use crate::program::{read, room, Program};
use crate::{Done, Outcome};
use std::path::Path;

/// Sixteen zeros and B0, and the status.
const WAKE: [u8; 18] = [0, 0, 0, 0, 0, 0, 0, 0, 0, 0, 0, 0, 0, 0, 0, 0, 0xB0, 0x70];

/// Refused: one line, no reply, and the folder as it was.
fn refused(
    folder: &Path,
    program: &Program,
    image: Option<&[u8]>,
    arguments: &[&str],
) -> Result<(), String> {
    let folder = room(folder, "refused", image.unwrap_or_default())?;
    let path = folder.join("unit.img");
    if image.is_none() {
        std::fs::remove_file(&path).map_err(|e| e.to_string())?;
    }
    let before = (names(&folder)?, stamp(&path).ok());
    let ended = program.play(&folder, arguments, &WAKE)?;
    one_line(&ended.errors)?;
    same("replies", &ended.said, &[])?;
    holds(
        "something was written",
        (names(&folder)?, stamp(&path).ok()) == before,
    )
}

/// Not refused: the session of its protection.
fn taken(
    folder: &Path,
    program: &Program,
    image: &[u8],
    arguments: &[&str],
    protection: u8,
    bytes: &[u8],
) -> Result<(), String> {
    let folder = room(folder, "taken", image)?;
    let wanted = play(image, protection, bytes)?;
    let ended = program.play(&folder, arguments, bytes)?;
    holds(
        &format!("it complained: {}", ended.errors),
        ended.errors.is_empty(),
    )?;
    same("replies", &ended.said, &wanted.joined())?;
    same("unit.img", &read(&folder.join("unit.img"))?, &wanted.image)
}

/// The new file cannot be made: the replies before the change, one line, no further reply, the image as it was.
fn unsaved(
    folder: &Path,
    program: &Program,
    image: &[u8],
    before: &[u8],
    change: &[u8],
) -> Result<(), String> {
    let folder = room(folder, "unsaved", image)?;
    std::fs::create_dir_all(folder.join("unit.img.new")).map_err(|e| e.to_string())?;
    let wanted = play(image, 0, before)?;
    let mut bytes = [before, change].concat();
    bytes.extend_from_slice(&[0x70, 0x70]);
    let ended = program.play(&folder, &[], &bytes)?;
    one_line(&ended.errors)?;
    same("replies", &ended.said, &wanted.joined())?;
    same("unit.img", &read(&folder.join("unit.img"))?, image)
}

pub fn run(folder: &Path, program: &Program) -> Outcome {
    let image = CASES[0].before;
    let short = &image[1..];
    let long = [image, &[0xFF]].concat();
    let mut runs = 0;
    let images: [(&str, Option<&[u8]>); 4] = [
        ("missing", None),
        ("empty", Some(&[])),
        ("a byte short", Some(short)),
        ("a byte long", Some(&long)),
    ];
    for (what, image) in images {
        refused(folder, program, image, &[])
            .map_err(|e| format!("an image that is {what}: {e}"))?;
        runs += 1;
    }
    let arguments: [&[&str]; 12] = [
        &["16"],
        &["255"],
        &["256"],
        &["99999999999999999999999"],
        &[""],
        &["x"],
        &["1x"],
        &[" 1"],
        &["-1"],
        &["+1"],
        &["0x1"],
        &["1", "2"],
    ];
    for words in arguments {
        refused(folder, program, Some(image), words)
            .map_err(|e| format!("arguments {words:?}: {e}"))?;
        runs += 1;
    }
    let wake_and_open = [
        &WAKE[..],
        &[
            0xF5, 0xDF, 0xFF, 0x00, 0x07, 0x31, 0x32, 0x33, 0x34, 0x35, 0x36, 0x37, 0x70,
        ],
    ]
    .concat();
    let erases = [
        &wake_and_open[..],
        &[
            0x20, 0xE0, 0x00, 0xD0, 0x70, 0x50, 0x20, 0xC0, 0x00, 0xD0, 0x70, 0x50, 0x20, 0x20,
            0x00, 0xD0, 0x70,
        ],
    ]
    .concat();
    let good: [(&[&str], u8); 6] = [
        (&[], 0),
        (&["0"], 0),
        (&["8"], 8),
        (&["15"], 15),
        (&["0005"], 5),
        (&["00000000000000000000000012"], 12),
    ];
    for (words, protection) in good {
        taken(folder, program, image, words, protection, &erases)
            .map_err(|e| format!("arguments {words:?}: {e}"))?;
        runs += 1;
    }
    unsaved(
        folder,
        program,
        image,
        &wake_and_open,
        &[0x20, 0xE0, 0x00, 0xD0],
    )
    .map_err(|e| format!("a save that fails: {e}"))?;
    Ok(Done::Passed(format!(
        "{} runs, {} of them refused, one with a save that fails",
        runs + 1,
        images.len() + arguments.len()
    )))
}
