//! The bench program's text.

use crate::port::{byte, start, REPLY_ROOM};
use std::fmt::Write;

/// The file that holds the image, in the current folder.
pub const IMAGE_FILE: &str = "unit.img";
/// Bytes of standard input that are read at most.
pub const INPUT_MAX: usize = 4096;

/// What the bench writes for an image (none: missing) and the bytes of standard input.
pub fn text(image: Option<&[u8]>, input: &[u8]) -> String {
    // A missing image is answered like one of a wrong size.
    let mut image = image.unwrap_or(&[]).to_vec();
    let (refusal, mut unit) = start(&image, 0);
    if refusal != 0 {
        return format!("refused {refusal}\n");
    }
    let mut text = String::new();
    let mut area = [0; REPLY_ROOM];
    for (number, &b) in (1..).zip(input.iter().take(INPUT_MAX)) {
        let answer = byte(&mut unit, &mut image, &mut area, b);
        if answer.reply_len > 0 {
            write_line(&mut text, number, &area[..answer.reply_len]);
        }
    }
    text + &format!("end {:02X} {:02X}\n", unit.srd, unit.srd1)
}

fn write_line(text: &mut String, number: usize, reply: &[u8]) {
    // Writing to a String cannot fail.
    let _ = write!(text, "{number}:");
    for b in reply {
        let _ = write!(text, " {b:02X}");
    }
    text.push('\n');
}
