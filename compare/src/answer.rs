//! The answers to a case, taken apart as docs/CASES.md lays them out.

use crate::case::{calls, Beginning, Case, RECORD};

pub struct Call<'a> {
    /// The group's number, and the byte's in it (of a run: 0).
    pub group: usize,
    pub byte: usize,
    pub refusal: u8,
    pub taken: usize,
    pub reply_len: usize,
    pub srd: u8,
    pub srd1: u8,
    pub area: &'a [u8],
    pub image: Option<&'a [u8]>,
}

impl Call<'_> {
    pub fn reply(&self) -> &[u8] {
        &self.area[..self.reply_len.min(self.area.len())]
    }
}

pub struct Answer<'a> {
    /// The start call's refusal and unit record.
    pub start: Option<(u8, &'a [u8])>,
    pub calls: Vec<Call<'a>>,
    pub record: &'a [u8],
    pub image: &'a [u8],
}

/// Takes the answer of a case off the front of the bytes; nothing if they are too few.
pub fn take<'a>(case: &Case, bytes: &mut &'a [u8]) -> Option<Answer<'a>> {
    if bytes.len() < case.answer_len() {
        return None;
    }
    let mut part = |n: usize| {
        let (now, later) = bytes.split_at(n);
        *bytes = later;
        now
    };
    let start = match case.beginning {
        Beginning::Start { .. } => Some((part(1)[0], part(RECORD))),
        Beginning::Given(_) => None,
    };
    let mut found = Vec::new();
    for (g, group) in case.groups.iter().enumerate() {
        for byte in 0..calls(group) {
            let head = part(7);
            let area = part(group.area as usize);
            let image = if case.trace {
                Some(part(case.image.len()))
            } else {
                None
            };
            found.push(Call {
                group: g,
                byte,
                refusal: head[0],
                taken: u16::from_le_bytes([head[1], head[2]]) as usize,
                reply_len: u16::from_le_bytes([head[3], head[4]]) as usize,
                srd: head[5],
                srd1: head[6],
                area,
                image,
            });
        }
    }
    Some(Answer {
        start,
        calls: found,
        record: part(RECORD),
        image: part(case.image.len()),
    })
}
