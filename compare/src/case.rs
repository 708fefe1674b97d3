//! A case as docs/CASES.md lays it out: what both programs read.

pub const IMAGE: usize = 20_480;
pub const RECORD: usize = 268;
/// Where the seven ID bytes stand in the image.
pub const ID_PLACES: [usize; 7] = [20447, 20451, 20459, 20463, 20467, 20471, 20475];

/// A unit record, given or answered.
#[derive(Clone)]
pub struct Record {
    pub tag: u8,
    pub count: u16,
    pub srd: u8,
    pub srd1: u8,
    pub blank: u8,
    pub protection: u8,
    pub rate: u8,
    pub mismatches: u8,
    pub collected: [u8; 259],
}

impl Record {
    fn lay(&self, out: &mut Vec<u8>) {
        out.push(self.tag);
        out.extend(self.count.to_le_bytes());
        out.extend([self.srd, self.srd1, self.blank]);
        out.extend([self.protection, self.rate, self.mismatches]);
        out.extend(self.collected);
    }
}

/// How a case begins: with a start call, or with a unit record.
#[derive(Clone)]
pub enum Beginning {
    Start { protection: u8 },
    Given(Box<Record>),
}

#[derive(Clone)]
pub struct Group {
    /// One run call with all the bytes, or a byte call for each.
    pub run: bool,
    pub area: u16,
    pub fill: u8,
    pub bytes: Vec<u8>,
}

#[derive(Clone)]
pub struct Case {
    pub beginning: Beginning,
    /// The whole image is written after every call.
    pub trace: bool,
    pub image: Vec<u8>,
    pub groups: Vec<Group>,
}

impl Case {
    /// The case's bytes, its length before them. The image is laid out as its commonest byte and patches.
    pub fn lay(&self, out: &mut Vec<u8>) {
        let mut body = Vec::new();
        match &self.beginning {
            Beginning::Start { protection } => {
                body.extend([0, *protection, self.trace as u8]);
                body.extend([0; RECORD]);
            }
            Beginning::Given(record) => {
                body.extend([1, 0, self.trace as u8]);
                record.lay(&mut body);
            }
        }
        let fill = commonest(&self.image);
        body.extend((self.image.len() as u16).to_le_bytes());
        body.push(fill);
        let patches = patches(&self.image, fill);
        body.extend((patches.len() as u16).to_le_bytes());
        for (offset, bytes) in patches {
            body.extend((offset as u16).to_le_bytes());
            body.push(bytes.len() as u8);
            body.extend(bytes);
        }
        body.extend((self.groups.len() as u16).to_le_bytes());
        for group in &self.groups {
            body.push(group.run as u8);
            body.extend(group.area.to_le_bytes());
            body.push(group.fill);
            body.extend((group.bytes.len() as u16).to_le_bytes());
            body.extend(&group.bytes);
        }
        assert!(
            body.len() <= 65_536,
            "the generator made a case that is too long"
        );
        out.extend((body.len() as u32).to_le_bytes());
        out.extend(body);
    }

    /// How many bytes the answer to this case has.
    pub fn answer_len(&self) -> usize {
        let traced = if self.trace { self.image.len() } else { 0 };
        let calls: usize = self
            .groups
            .iter()
            .map(|g| calls(g) * (7 + g.area as usize + traced))
            .sum();
        let start = match self.beginning {
            Beginning::Start { .. } => 1 + RECORD,
            Beginning::Given(_) => 0,
        };
        start + calls + RECORD + self.image.len()
    }
}

/// The cases as a batch.
pub fn lay_all<'a>(cases: impl IntoIterator<Item = &'a Case>) -> Vec<u8> {
    let mut bytes = Vec::new();
    for case in cases {
        case.lay(&mut bytes);
    }
    bytes
}

pub fn calls(group: &Group) -> usize {
    if group.run {
        1
    } else {
        group.bytes.len()
    }
}

fn commonest(image: &[u8]) -> u8 {
    let mut counts = [0usize; 256];
    for &b in image {
        counts[b as usize] += 1;
    }
    (0..256).max_by_key(|&b| counts[b]).unwrap_or(0) as u8
}

/// What differs from the fill, in stretches of at most 255 bytes.
fn patches(image: &[u8], fill: u8) -> Vec<(usize, &[u8])> {
    let mut found = Vec::new();
    let mut at = 0;
    while at < image.len() {
        if image[at] == fill {
            at += 1;
            continue;
        }
        let end = (at + 255).min(image.len());
        let mut last = at;
        for k in at..end {
            if image[k] != fill {
                last = k;
            }
        }
        found.push((at, &image[at..=last]));
        at = last + 1;
    }
    found
}
