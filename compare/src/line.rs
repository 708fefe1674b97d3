//! The bytes of a drawn case: packets whole, wrong, nested and cut off, at the edges of blocks and banks, and noise.

use crate::random::Random;

/// Addresses at and around the ends of blocks and banks.
const EDGES: [u32; 29] = [
    0x001FFF, 0x002000, 0x002000, 0x0020FF, 0x0027FE, 0x0027FF, 0x0027FF, 0x002800, 0x002801,
    0x002FFE, 0x002FFF, 0x002FFF, 0x003000, 0x007FFF, 0x00BFFF, 0x00C000, 0x00C000, 0x00DFFE,
    0x00DFFF, 0x00DFFF, 0x00E000, 0x00FF00, 0x00FFDF, 0x00FFF0, 0x00FFFE, 0x00FFFF, 0x010000,
    0x01FFF0, 0xFFFFFF,
];

pub struct Line<'a> {
    pub random: &'a mut Random,
    pub id: [u8; 7],
    pub bytes: Vec<u8>,
}

impl Line<'_> {
    pub fn wake(&mut self) {
        let zeros = match self.random.below(12) {
            0 => 15,
            1 => 17,
            2 => 40,
            3 => self.random.below(16),
            _ => 16,
        };
        if self.random.once_in(6) {
            let early = self.random.of(&[0xB0, 0x70, 0xFF, 0x01]);
            self.bytes.push(early);
        }
        self.bytes.extend(vec![0; zeros]);
        self.bytes
            .push(if self.random.once_in(20) { 0xB1 } else { 0xB0 });
    }

    pub fn surely_wake(&mut self) {
        self.bytes.extend([0; 16]);
        self.bytes.push(0xB0);
    }

    pub fn id_packet(&mut self, address: [u8; 3], data: &[u8]) {
        self.bytes.push(0xF5);
        self.bytes.extend(address);
        self.bytes.push(data.len() as u8);
        self.bytes.extend(data);
    }

    pub fn right(&mut self) {
        let id = self.id;
        self.id_packet([0xDF, 0xFF, 0x00], &id);
    }

    pub fn wrong(&mut self) {
        let mut id = self.id.to_vec();
        let mut address = [0xDF, 0xFF, 0x00];
        match self.random.below(9) {
            0 => id[6] = id[6].wrapping_add(1),
            1 => id[0] ^= 0x80,
            2 => address[0] = 0xDE,
            3 => address[2] = 0x0F,
            4 => {
                id.pop();
            }
            5 => id.clear(),
            6 => id.push(0x38),
            7 => id = (0..255).map(|_| self.random.byte()).collect(),
            // a whole right packet, and its start, inside a wrong one's data
            _ => {
                let mut nested = vec![0xF5, 0xDF, 0xFF, 0x00, 0x07];
                nested.extend(&id);
                id = nested;
            }
        }
        self.id_packet(address, &id);
    }

    /// Wrong ID packets up to the lock and past it, right ones between them or after them, and what can be seen of each.
    pub fn tries(&mut self) {
        let between = self.random.once_in(2);
        for _ in 0..1 + self.random.below(4) {
            if between {
                self.right();
            }
            self.wrong();
            if self.random.once_in(3) {
                self.bytes.push(0x70);
            }
        }
        self.right();
        self.bytes.push(0x70);
    }

    fn cut_off(&mut self) {
        let before = self.bytes.len();
        if self.random.once_in(3) {
            self.right();
        } else {
            self.open_packet();
        }
        let length = self.bytes.len() - before;
        if length > 1 {
            let keep = 1 + self.random.below(length - 1);
            self.bytes.truncate(before + keep);
        }
    }

    fn address(&mut self) -> u32 {
        match self.random.below(8) {
            0..=4 => {
                self.random
                    .of(&EDGES)
                    .wrapping_add(self.random.of(&[0, 0, 0, 1, 0xFFFF_FFFF]))
                    & 0xFF_FFFF
            }
            5 => 0x2000 + self.random.below(0x1000) as u32,
            6 => 0xC000 + self.random.below(0x4000) as u32,
            _ => self.random.next() as u32 & 0xFF_FFFF,
        }
    }

    /// Where n bytes end with the last byte of the flash's bank, or one before it.
    fn ending_a_bank(&mut self, n: usize) -> u32 {
        0x010000 - n as u32 - self.random.of(&[0, 0, 1])
    }

    fn data(&mut self, n: usize) -> Vec<u8> {
        match self.random.below(5) {
            0 => vec![0x00; n],
            1 => vec![0xFF; n],
            2 => vec![self.random.byte(); n],
            _ => (0..n).map(|_| self.random.byte()).collect(),
        }
    }

    fn page_bytes(&mut self) -> [u8; 2] {
        let a = self.address();
        [(a >> 8) as u8, (a >> 16) as u8]
    }

    fn confirm(&mut self) -> u8 {
        match self.random.below(8) {
            0 => 0xFF,
            1 => 0xD1,
            2 => self.random.byte(),
            _ => 0xD0,
        }
    }

    /// A packet that a closed unit drops.
    pub fn open_packet(&mut self) {
        match self.random.below(12) {
            0 | 1 => {
                let page = self.page_bytes();
                self.bytes.push(0xFF);
                self.bytes.extend(page);
            }
            2..=4 => {
                let page = self.page_bytes();
                let data = self.data(256);
                self.bytes.push(0x41);
                self.bytes.extend(page);
                self.bytes.extend(data);
            }
            5..=8 => {
                let n = self
                    .random
                    .of(&[0, 1, 1, 1, 2, 2, 3, 7, 15, 16, 17, 40, 255]);
                let a = if self.random.once_in(6) {
                    self.ending_a_bank(n)
                } else {
                    self.address()
                };
                let data = self.data(n);
                self.bytes.push(0x49);
                self.bytes
                    .extend([a as u8, (a >> 8) as u8, (a >> 16) as u8, n as u8]);
                self.bytes.extend(data);
            }
            9 | 10 => {
                let page = self.page_bytes();
                let confirm = self.confirm();
                self.bytes.push(0x20);
                self.bytes.extend(page);
                self.bytes.push(confirm);
            }
            _ => {
                let confirm = self.confirm();
                self.bytes.extend([0xA7, confirm]);
            }
        }
    }

    pub fn short(&mut self) {
        let b = self.random.of(&[
            0x50, 0x50, 0x50, 0x70, 0x70, 0xFB, 0xB0, 0xB1, 0xB2, 0xB3, 0xB4, 0xB5, 0x00, 0x75,
            0x71, 0x77, 0xFD, 0x01, 0xFE,
        ]);
        self.bytes.push(b);
    }

    pub fn scene(&mut self) {
        match self.random.below(20) {
            0 => self.wake(),
            1 | 2 => self.right(),
            3 => self.wrong(),
            4 => self.cut_off(),
            5 => {
                let n = self.random.below(6);
                for _ in 0..n {
                    let b = self.random.byte();
                    self.bytes.push(b);
                }
            }
            6..=11 => {
                if self.random.once_in(2) {
                    self.bytes.push(0x50);
                }
                self.open_packet();
            }
            12 => {
                self.open_packet();
                self.bytes.extend([0x70, 0x50]);
            }
            _ => self.short(),
        }
    }

    /// A stream from a small alphabet, with no idea of packets.
    pub fn alphabet(&mut self, length: usize) {
        let all = [
            0x00, 0x00, 0xB0, 0xF5, 0xDF, 0xFF, 0x07, 0x41, 0x49, 0x20, 0xA7, 0xD0, 0x70, 0x50,
            0xC0, 0xE0, 0x01, 0x04, 0x31, 0xFB,
        ];
        let size = 3 + self.random.below(6);
        let letters: Vec<u8> = (0..size).map(|_| self.random.of(&all)).collect();
        for _ in 0..length {
            let b = letters[self.random.below(size)];
            self.bytes.push(b);
        }
    }
}
