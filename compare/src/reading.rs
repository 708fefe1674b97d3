//! What a unit that has not opened makes of a list of bytes, by document 01's packet rules and document 02's Item 5: how long each reply is, and which byte opens the unit.
//! By it a stream is cut into calls, and a comparison stops at the opening byte. It does not know what is replied.

use crate::watch::{length, Phase, Watch};

#[derive(Default)]
pub struct Reading {
    /// For each byte up to the opening one, and for that one: its reply's length, and where the unit is after it.
    pub bytes: Vec<(usize, &'static str)>,
    /// The last of these bytes opens the unit.
    pub opens: bool,
    /// What follows F5 in each complete ID packet.
    pub packets: Vec<Vec<u8>>,
}

fn reply_length(before: &Phase, b: u8) -> usize {
    match (before, b) {
        (Phase::Asleep(zeros), 0xB0) if *zeros >= 16 => 1,
        (Phase::Command, 0x70) => 2,
        (Phase::Command, 0xFB) => 8,
        (Phase::Command, 0xB0..=0xB4) => 1,
        _ => 0,
    }
}

fn whereabouts(phase: &Phase) -> &'static str {
    match phase {
        Phase::Asleep(0) => "asleep",
        Phase::Asleep(_) => "among the zeros",
        Phase::Command => "at a command",
        Phase::Packet(..) => "inside an ID packet",
    }
}

/// Reads a list from a fresh unit on, up to its end or to the opening byte. `stored` is what follows F5 in the right ID packet.
pub fn read(list: &[u8], stored: &[u8], watch: &mut Watch) -> Reading {
    let mut reading = Reading::default();
    let mut phase = Phase::Asleep(0);
    let mut wrong = 0;
    for &b in list {
        let reply = reply_length(&phase, b);
        phase = match phase {
            Phase::Asleep(zeros) => watch.asleep(zeros, b),
            Phase::Command => watch.command(b, false),
            Phase::Packet(command, mut got) => {
                got.push(b);
                if got.len() < length(command, &got) {
                    Phase::Packet(command, got)
                } else {
                    reading.opens = got == stored && wrong < 3;
                    let srd1 = if reading.opens { 0x0C } else { 0x04 };
                    wrong = watch.check(&got, false, srd1, wrong, stored);
                    reading.packets.push(got);
                    Phase::Command
                }
            }
        };
        reading.bytes.push((reply, whereabouts(&phase)));
        if reading.opens {
            break;
        }
    }
    reading
}

impl Reading {
    /// How many bytes there are up to the opening one, with it; of a list that does not open the unit, all.
    pub fn len(&self) -> usize {
        self.bytes.len()
    }

    /// How many of the bytes from `at` to `end` a run takes with this much room. Past the opening byte nothing is known, and all are given as taken.
    pub fn taken(&self, at: usize, end: usize, area: usize) -> usize {
        let mut used = 0;
        for k in at..end.min(self.len()) {
            if used + 256 > area {
                return k - at;
            }
            used += self.bytes[k].0;
        }
        end - at
    }
}

#[cfg(test)]
mod tests {
    use super::*;

    const RIGHT: [u8; 12] = [
        0xF5, 0xDF, 0xFF, 0x00, 0x07, 0x31, 0x32, 0x33, 0x34, 0x35, 0x36, 0x37,
    ];
    /// A complete ID packet of size 0.
    const WRONG: [u8; 5] = [0xF5, 0xDF, 0xFF, 0x00, 0x00];

    fn awake(rest: &[&[u8]]) -> Reading {
        let list = [&[0; 16], &[0xB0][..], &rest.concat()].concat();
        read(&list, &RIGHT[1..], &mut Watch::default())
    }

    fn lengths(reading: &Reading) -> Vec<usize> {
        reading.bytes[17..].iter().map(|byte| byte.0).collect()
    }

    #[test]
    fn fifteen_zeros_do_not_wake() {
        let list = [&[0; 15], &[0xB0, 0x70][..]].concat();
        let reading = read(&list, &RIGHT[1..], &mut Watch::default());
        assert!(reading.bytes.iter().all(|byte| byte.0 == 0));
        assert_eq!(reading.bytes[14].1, "among the zeros");
    }

    #[test]
    fn a_guarded_byte_is_dropped_alone() {
        let reading = awake(&[&[0xFF, 0x00, 0x20, 0x70, 0x41, 0xFB, 0xB4, 0xB5]]);
        assert_eq!(reading.bytes[16].0, 1);
        assert_eq!(lengths(&reading), [0, 0, 0, 2, 0, 8, 1, 0]);
        assert!(!reading.opens);
    }

    #[test]
    fn the_right_packet_opens_at_its_last_byte() {
        let reading = awake(&[&WRONG, &WRONG, &RIGHT, &[0x70, 0xFF]]);
        assert!(reading.opens);
        assert_eq!(reading.len(), 17 + 5 + 5 + 12);
        assert_eq!(reading.packets.len(), 3);
        assert_eq!(reading.bytes[17 + 10 + 10].1, "inside an ID packet");
    }

    #[test]
    fn three_wrong_packets_lock() {
        let reading = awake(&[&WRONG, &WRONG, &WRONG, &RIGHT, &[0x70]]);
        assert!(!reading.opens);
        assert_eq!(reading.len(), 17 + 15 + 12 + 1);
        assert_eq!(lengths(&reading).last(), Some(&2));
    }

    #[test]
    fn a_run_stops_before_a_byte_without_room() {
        // at 17: 70, FB, 00, 00
        let reading = awake(&[&[0x70, 0xFB, 0x00, 0x00]]);
        assert_eq!(reading.taken(17, 21, 255), 0);
        assert_eq!(reading.taken(17, 21, 256), 1);
        assert_eq!(reading.taken(17, 21, 258), 2);
        assert_eq!(reading.taken(17, 21, 266), 4);
        assert_eq!(reading.taken(0, 17, 256), 17);
    }
}
