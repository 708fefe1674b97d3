//! The recorded sessions of the real client, m16c-flash 0.1, and what they must lead to.
//!
//! The replies are those of the independent second program. The image is computed twice: by that program, and from the
//! file that the client was given.

use crate::expect::{holds, same};

/// A recorded session: the image before, the client's file and ID, the bytes that it sent.
pub struct Case {
    pub name: &'static str,
    pub before: &'static [u8],
    pub file: &'static [u8],
    pub id: &'static str,
    pub sent: &'static [u8],
    /// The replies' number of bytes and the client's exit status, as they were recorded.
    pub replied: usize,
    pub status: i32,
}

macro_rules! recorded {
    ($name:literal, $id:literal, $replied:literal, $status:literal) => {
        Case {
            name: $name,
            before: include_bytes!(concat!("../data/", $name, ".before.img")),
            file: include_bytes!(concat!("../data/", $name, ".mot")),
            id: $id,
            sent: include_bytes!(concat!("../data/", $name, ".tx.bin")),
            replied: $replied,
            status: $status,
        }
    };
}

pub const CASES: [Case; 4] = [
    recorded!("a_right_id", "31:32:33:34:35:36:37", 23, 0),
    recorded!("b_wrong_id", "31:32:33:34:35:36:38", 15, 255),
    recorded!("c_blank", "0:0:0:0:0:0:0", 47, 0),
    recorded!("d_multi", "31:32:33:34:35:36:37", 47, 0),
];

/// What a session leads to by the second program: each byte's reply, and the image at the end.
pub struct Played {
    pub replies: Vec<Vec<u8>>,
    pub image: Vec<u8>,
}

impl Played {
    pub fn joined(&self) -> Vec<u8> {
        self.replies.concat()
    }
}

pub fn play(image: &[u8], protection: u8, bytes: &[u8]) -> Result<Played, String> {
    let mut image = image.to_vec();
    let (refusal, mut unit) = reference::start(&image, protection);
    holds("the second program refuses the start", refusal == 0)?;
    let mut replies = Vec::with_capacity(bytes.len());
    let mut area = [0; reference::REPLY_ROOM];
    for &b in bytes {
        let answer = reference::byte(&mut unit, &mut image, &mut area, b);
        holds("the second program refuses a byte", answer.refusal == 0)?;
        replies.push(area[..answer.reply_len].to_vec());
    }
    Ok(Played { replies, image })
}

impl Case {
    /// A wrong ID: nothing may be written.
    pub fn is_refused(&self) -> bool {
        self.status != 0
    }

    /// The image that the file asks for: blocks 2 and 3 erased, and the records' bytes there; untouched where the ID is wrong.
    fn by_file(&self) -> Result<Vec<u8>, String> {
        let mut image = self.before.to_vec();
        if self.is_refused() {
            return Ok(image);
        }
        image[4096..].fill(0xFF);
        for line in String::from_utf8_lossy(self.file).lines() {
            let Some(record) = line.strip_prefix("S1") else {
                continue;
            };
            let number = |at: usize| {
                u8::from_str_radix(record.get(at..at + 2).unwrap_or(""), 16)
                    .map_err(|e| format!("{line}: {e}"))
            };
            let data = usize::from(number(0)?) - 3;
            let address = usize::from(number(2)?) * 256 + usize::from(number(4)?);
            for i in 0..data {
                // the case files lie in 0C000 to 0FFFF, which is the image from 4096 on
                image[address + i - 0xC000 + 4096] = number(6 + 2 * i)?;
            }
        }
        Ok(image)
    }

    pub fn wanted(&self) -> Result<Played, String> {
        let played = play(self.before, 0, self.sent)?;
        same(
            "the image by the second program and by the file",
            &played.image,
            &self.by_file()?,
        )?;
        holds(
            "the number of recorded replies",
            played.joined().len() == self.replied,
        )?;
        Ok(played)
    }
}
