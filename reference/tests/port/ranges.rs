//! Hand-made unit records, in and out of range.

use crate::support::in_packet;
use reference::sessions::image;
use reference::{byte, run, Answer, Command, Phase, Unit};

const ALL: [Command; 6] = [
    Command::PageRead,
    Command::PageProgram,
    Command::UnitProgram,
    Command::BlockErase,
    Command::EraseAll,
    Command::IdCheck,
];

/// Whether byte and run both accept the unit; they must agree with each other, and where they
/// refuse it they must hand it back as given.
fn accepted(unit: &Unit) -> bool {
    let mut area = [0; 256];
    let mut after_byte = unit.clone();
    let by_byte = byte(&mut after_byte, &mut image(), &mut area, 0x99);
    let mut after_run = unit.clone();
    let by_run = run(&mut after_run, &mut image(), &[], &mut area);
    assert_eq!(&after_run, unit);
    assert_eq!(by_byte.refusal, by_run.refusal);
    assert_eq!(by_run, Answer::refused(by_run.refusal));
    if by_byte.refusal == 0 {
        assert_eq!(by_byte.taken, 1);
        assert!(after_byte.in_range());
        true
    } else {
        assert_eq!(by_byte, Answer::refused(4));
        assert_eq!(&after_byte, unit);
        false
    }
}

fn open() -> Unit {
    Unit {
        phase: Phase::AtCommand,
        srd1: 0x0C,
        ..Unit::idle()
    }
}

fn inside(command: Command, received: u16, size: u8) -> Unit {
    let mut unit = open();
    unit.phase = in_packet(command, received);
    unit.collected[3] = size;
    unit
}

#[test]
fn count_of_zeros() {
    for zeros in (0..=300).chain([u16::MAX]) {
        let mut unit = open();
        unit.phase = Phase::Asleep { zeros };
        assert_eq!(accepted(&unit), zeros <= 16);
    }
}

#[test]
fn srd_is_one_of_four() {
    for srd in 0..=0xFF {
        let unit = Unit { srd, ..open() };
        assert_eq!(accepted(&unit), [0x80, 0x90, 0xA0, 0xB0].contains(&srd));
    }
}

#[test]
fn srd1_is_one_of_three_and_blank_implies_0c() {
    for srd1 in 0..=0xFF {
        let unit = Unit { srd1, ..open() };
        assert_eq!(accepted(&unit), [0x00, 0x04, 0x0C].contains(&srd1));
        let unit = Unit {
            blank: true,
            ..unit
        };
        assert_eq!(accepted(&unit), srd1 == 0x0C);
    }
}

#[test]
fn protection_and_rate() {
    for n in 0..=0xFF {
        let protection = Unit {
            protection: n,
            ..open()
        };
        assert_eq!(accepted(&protection), n <= 15);
        let rate = Unit { rate: n, ..open() };
        assert_eq!(accepted(&rate), n <= 4);
    }
}

#[test]
fn mismatches_are_at_most_3_and_0_if_blank() {
    for mismatches in 0..=0xFF {
        for srd1 in [0x00, 0x04, 0x0C] {
            let unit = Unit {
                srd1,
                mismatches,
                ..open()
            };
            assert_eq!(accepted(&unit), mismatches <= 3);
        }
        let blank = Unit {
            blank: true,
            mismatches,
            ..open()
        };
        assert_eq!(accepted(&blank), mismatches == 0);
    }
}

#[test]
fn fixed_packets_have_received_fewer_than_they_have() {
    let totals = [
        (Command::PageRead, 2),
        (Command::PageProgram, 258),
        (Command::BlockErase, 3),
        (Command::EraseAll, 1),
    ];
    for (command, total) in totals {
        for received in (0..600).chain([u16::MAX]) {
            // The fourth collected byte says nothing about these.
            assert_eq!(accepted(&inside(command, received, 0)), received < total);
            assert_eq!(accepted(&inside(command, received, 255)), received < total);
        }
    }
}

#[test]
fn sized_packets_have_received_fewer_than_4_plus_the_fourth_collected_byte() {
    for command in [Command::UnitProgram, Command::IdCheck] {
        for size in [0, 1, 2, 7, 254, 255] {
            for received in (0..600).chain([u16::MAX]) {
                let good = received < 4 || received < 4 + u16::from(size);
                assert_eq!(accepted(&inside(command, received, size)), good);
            }
        }
        // Size 0 with four received would have ended; with 255, the 258th byte is the last place.
        assert!(!accepted(&inside(command, 4, 0)));
        assert!(accepted(&inside(command, 4, 1)));
        assert!(accepted(&inside(command, 258, 255)));
        assert!(!accepted(&inside(command, 259, 255)));
        assert!(!accepted(&inside(command, 258, 254)));
    }
}

#[test]
fn a_packet_needs_an_open_unit_but_f5() {
    for command in ALL {
        for srd1 in [0x00, 0x04, 0x0C] {
            let unit = Unit {
                srd1,
                ..inside(command, 0, 0)
            };
            let good = srd1 == 0x0C || command == Command::IdCheck;
            assert_eq!(accepted(&unit), good);
        }
    }
}

#[test]
fn unreachable_but_in_range() {
    // Asleep and open though not blank and locked, with error bits, a rate and collected bytes.
    let unit = Unit {
        phase: Phase::Asleep { zeros: 7 },
        srd: 0xB0,
        srd1: 0x0C,
        blank: false,
        protection: 15,
        rate: 4,
        mismatches: 3,
        collected: [0xFF; 259],
    };
    assert!(accepted(&unit));
    // Collected bytes past the place of the packet may be anything.
    let mut unit = inside(Command::EraseAll, 0, 0xFF);
    unit.collected = [0xAB; 259];
    assert!(accepted(&unit));
}

#[test]
fn one_fault_is_enough() {
    let mut unit = inside(Command::PageRead, 1, 0);
    assert!(accepted(&unit));
    unit.rate = 5;
    assert!(!accepted(&unit));
    unit.rate = 4;
    unit.srd = 0x81;
    assert!(!accepted(&unit));
    unit.srd = 0x90;
    unit.mismatches = 4;
    assert!(!accepted(&unit));
    unit.mismatches = 3;
    assert!(accepted(&unit));
    unit.blank = true;
    assert!(!accepted(&unit));
    unit.mismatches = 0;
    assert!(accepted(&unit));
    unit.srd1 = 0x04;
    assert!(!accepted(&unit));
}
