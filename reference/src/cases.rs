//! Batches of cases: the reader and the answer writer of CASES.md.

use crate::batch::{read_up_to, Stop};
use crate::flash::IMAGE_LEN;
use crate::port::{byte, run, start, Answer, AREA_SIZE, IMAGE_SIZE, REPLY_ROOM, UNIT_RANGE};
use crate::record::{decode, encode, Record, RECORD_LEN};
use crate::unit::Unit;
use std::io::{self, Read, Write};

const CASE_MAX: usize = 65_536;
const IMAGE_MAX: usize = 32_768;
const AREA_MAX: usize = 16_384;

/// Answers every case of the input. Nothing is written for a case that is not well formed, and
/// nothing after it is read.
pub fn replay(input: &mut impl Read, output: &mut impl Write) -> Result<(), Stop> {
    let mut body = Vec::new();
    for number in 1.. {
        let mut len = [0; 4];
        match read_up_to(input, &mut len)? {
            0 => break,
            4 => {}
            _ => return Err(Stop::Malformed(number)),
        }
        let len = u32::from_le_bytes(len) as usize;
        if len > CASE_MAX {
            return Err(Stop::Malformed(number));
        }
        body.resize(len, 0);
        if read_up_to(input, &mut body)? < len {
            return Err(Stop::Malformed(number));
        }
        let case = Case::parse(&body).ok_or(Stop::Malformed(number))?;
        case.answer(output)?;
    }
    Ok(())
}

struct Case<'a> {
    begin: Begin<'a>,
    trace: bool,
    image: Vec<u8>,
    groups: Vec<Group<'a>>,
}

enum Begin<'a> {
    Start { protection: u8 },
    Given(&'a Record),
}

struct Group<'a> {
    is_run: bool,
    area_len: usize,
    area_fill: u8,
    bytes: &'a [u8],
}

impl<'a> Case<'a> {
    /// The case of a body, none if it is not well formed.
    fn parse(body: &'a [u8]) -> Option<Case<'a>> {
        let mut fields = Fields(body);
        let mode = fields.flag()?;
        let protection = fields.u8()?;
        let trace = fields.flag()?;
        let record = fields.array::<RECORD_LEN>()?;
        let begin = if mode {
            Begin::Given(record)
        } else {
            Begin::Start { protection }
        };
        let image = fields.image()?;
        let groups = fields.u16()?;
        let groups = (0..groups)
            .map(|_| fields.group())
            .collect::<Option<Vec<_>>>()?;
        fields.0.is_empty().then_some(Case {
            begin,
            trace,
            image,
            groups,
        })
    }

    /// Plays the case and writes its answer.
    fn answer(self, output: &mut impl Write) -> io::Result<()> {
        let mut image = self.image;
        let mut held = match self.begin {
            Begin::Start { protection } => {
                let (refusal, unit) = start(&image, protection);
                output.write_all(&[refusal])?;
                output.write_all(&encode(&unit))?;
                Held::Unit(unit)
            }
            Begin::Given(record) => Held::of(record),
        };
        let mut area = Vec::new();
        for group in &self.groups {
            // One call with all the bytes, or one call for each of them.
            let calls = if group.is_run { 1 } else { group.bytes.len() };
            area.resize(group.area_len, 0);
            for call in 0..calls {
                area.fill(group.area_fill);
                let answer = if group.is_run {
                    held.run(&mut image, group.bytes, &mut area)
                } else {
                    held.byte(&mut image, &mut area, group.bytes[call])
                };
                write_answer(output, answer, held.status())?;
                output.write_all(&area)?;
                if self.trace {
                    output.write_all(&image)?;
                }
            }
        }
        output.write_all(&held.record())?;
        output.write_all(&image)
    }
}

fn write_answer(output: &mut impl Write, answer: Answer, status: [u8; 2]) -> io::Result<()> {
    // A run has at most 65,535 bytes and an area at most 16,384, so both numbers fit.
    output.write_all(&[answer.refusal])?;
    output.write_all(&(answer.taken as u16).to_le_bytes())?;
    output.write_all(&(answer.reply_len as u16).to_le_bytes())?;
    output.write_all(&status)
}

/// The unit of a case, or a record that no unit has: that one is out of range whatever else it
/// holds, and is handed back as given.
enum Held {
    Unit(Unit),
    NoUnit(Record),
}

impl Held {
    fn of(record: &Record) -> Held {
        match decode(record) {
            Some(unit) => Held::Unit(unit),
            None => Held::NoUnit(*record),
        }
    }

    fn byte(&mut self, image: &mut [u8], area: &mut [u8], b: u8) -> Answer {
        match self {
            Held::Unit(unit) => byte(unit, image, area, b),
            Held::NoUnit(_) => no_unit(image, area),
        }
    }

    fn run(&mut self, image: &mut [u8], bytes: &[u8], area: &mut [u8]) -> Answer {
        match self {
            Held::Unit(unit) => run(unit, image, bytes, area),
            Held::NoUnit(_) => no_unit(image, area),
        }
    }

    /// SRD and SRD1.
    fn status(&self) -> [u8; 2] {
        match self {
            Held::Unit(unit) => [unit.srd, unit.srd1],
            Held::NoUnit(record) => [record[3], record[4]],
        }
    }

    fn record(&self) -> Record {
        match self {
            Held::Unit(unit) => encode(unit),
            Held::NoUnit(record) => *record,
        }
    }
}

/// The answer of a call whose unit is out of range: refusal 4, unless a lower one applies.
fn no_unit(image: &[u8], area: &[u8]) -> Answer {
    Answer::refused(if image.len() != IMAGE_LEN {
        IMAGE_SIZE
    } else if area.len() < REPLY_ROOM {
        AREA_SIZE
    } else {
        UNIT_RANGE
    })
}

/// What is left of a case's bytes.
struct Fields<'a>(&'a [u8]);

impl<'a> Fields<'a> {
    fn bytes(&mut self, len: usize) -> Option<&'a [u8]> {
        let (field, rest) = self.0.split_at_checked(len)?;
        self.0 = rest;
        Some(field)
    }

    fn array<const N: usize>(&mut self) -> Option<&'a [u8; N]> {
        let (field, rest) = self.0.split_first_chunk()?;
        self.0 = rest;
        Some(field)
    }

    fn u8(&mut self) -> Option<u8> {
        self.array::<1>().map(|&[byte]| byte)
    }

    fn u16(&mut self) -> Option<u16> {
        self.array().copied().map(u16::from_le_bytes)
    }

    /// A u16 that is at most `max`.
    fn len(&mut self, max: usize) -> Option<usize> {
        self.u16().map(usize::from).filter(|&len| len <= max)
    }

    /// A u8 that is 0 or 1.
    fn flag(&mut self) -> Option<bool> {
        match self.u8()? {
            0 => Some(false),
            1 => Some(true),
            _ => None,
        }
    }

    fn image(&mut self) -> Option<Vec<u8>> {
        let len = self.len(IMAGE_MAX)?;
        let fill = self.u8()?;
        let mut image = vec![fill; len];
        for _ in 0..self.u16()? {
            let offset = usize::from(self.u16()?);
            let n = usize::from(self.u8()?);
            let patch = self.bytes(n)?;
            // What lies past the image's end is left out.
            for (cell, &byte) in image.iter_mut().skip(offset).zip(patch) {
                *cell = byte;
            }
        }
        Some(image)
    }

    fn group(&mut self) -> Option<Group<'a>> {
        let is_run = self.flag()?;
        let area_len = self.len(AREA_MAX)?;
        let area_fill = self.u8()?;
        let n = usize::from(self.u16()?);
        Some(Group {
            is_run,
            area_len,
            area_fill,
            bytes: self.bytes(n)?,
        })
    }
}
