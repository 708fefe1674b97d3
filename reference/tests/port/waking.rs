use reference::sessions::Rig;
use reference::{Phase, Unit};

fn zeros(unit: &Unit) -> Option<u16> {
    match unit.phase {
        Phase::Asleep { zeros } => Some(zeros),
        _ => None,
    }
}

#[test]
fn the_count_rises_to_16_and_stays() {
    let mut rig = Rig::asleep(0);
    for n in 1..=16 {
        assert_eq!(rig.feed(&[0]), []);
        assert_eq!(zeros(&rig.unit), Some(n));
    }
    for _ in 0..300 {
        assert_eq!(rig.feed(&[0]), []);
        assert_eq!(zeros(&rig.unit), Some(16));
    }
    assert_eq!(rig.feed(&[0xB0]), [0xB0]);
    assert_eq!(rig.unit.phase, Phase::AtCommand);
}

#[test]
fn any_other_byte_sets_the_count_to_0() {
    for b in 1..=0xFF {
        for count in [0, 1, 15, 16] {
            let mut rig = Rig::asleep(0);
            rig.unit.phase = Phase::Asleep { zeros: count };
            let wakes = b == 0xB0 && count == 16;
            let expected: &[u8] = if wakes { &[0xB0] } else { &[] };
            assert_eq!(rig.feed(&[b]), expected);
            assert_eq!(zeros(&rig.unit), if wakes { None } else { Some(0) });
        }
    }
}

#[test]
fn an_early_b0_costs_the_whole_count() {
    let mut rig = Rig::asleep(0);
    rig.feed(&[0; 15]);
    assert_eq!(rig.feed(&[0xB0]), []);
    assert_eq!(rig.feed(&[0x00, 0xB0]), []);
    rig.feed(&[0; 16]);
    assert_eq!(rig.feed(&[0xB0]), [0xB0]);
}

#[test]
fn waking_changes_no_other_field() {
    let mut rig = Rig::asleep(5);
    rig.unit.phase = Phase::Asleep { zeros: 16 };
    rig.unit.srd = 0xB0;
    rig.unit.srd1 = 0x0C;
    rig.unit.rate = 4;
    rig.unit.mismatches = 2;
    rig.unit.collected = [0x77; 259];
    let mut expected = rig.unit.clone();
    expected.phase = Phase::AtCommand;
    assert_eq!(rig.feed(&[0xB0]), [0xB0]);
    assert_eq!(rig.unit, expected);
}

#[test]
fn asleep_no_packet_is_read_and_open_does_not_matter() {
    let mut rig = Rig::asleep(0);
    rig.unit.srd1 = 0x0C;
    let before = rig.image.clone();
    assert_eq!(rig.feed(&[0xA7, 0xD0, 0x70, 0xFB, 0xFF, 0x20, 0x00]), []);
    assert_eq!(rig.image, before);
    // The last 00 counts.
    assert_eq!(zeros(&rig.unit), Some(1));
}
