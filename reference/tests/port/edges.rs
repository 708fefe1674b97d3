//! Edges of blocks and banks, through packets.

use crate::support::{all_are, is_protected, open_over, status_after, CELLS};
use reference::sessions::{page_program, unit_program, Rig};

/// First and last address of the blocks, for a unit program: it does not reach 0FFFF.
const BLOCKS: [(u32, u32); 4] = [
    (0x02000, 0x027FF),
    (0x02800, 0x02FFF),
    (0x0C000, 0x0DFFF),
    (0x0E000, 0x0FFFE),
];

/// Whether a unit program of zeros over FF is permitted: SRD is 80 and these bytes alone are
/// written, or it is 90 and none.
fn permits(protection: u8, address: u32, len: usize) -> bool {
    let mut rig = open_over(0xFF, protection);
    rig.feed(&unit_program(address, &vec![0; len]));
    let permitted = rig.unit.srd == 0x80;
    let changed = rig.image.iter().filter(|&&cell| cell != 0xFF).count();
    if permitted {
        assert!((address..address + len as u32).all(|a| rig.at(a) == 0));
        assert_eq!(changed, len);
    } else {
        assert_eq!((rig.unit.srd, changed), (0x90, 0));
    }
    permitted
}

/// With nothing protected, a program of this length is permitted at each of these addresses.
#[track_caller]
fn assert_permitted(len: usize, addresses: &[u32]) {
    for &address in addresses {
        assert!(permits(0, address, len), "{address:05X}");
    }
}

/// Not even with nothing protected is it permitted at any of these.
#[track_caller]
fn assert_forbidden(len: usize, addresses: &[u32]) {
    for &address in addresses {
        assert!(!permits(0, address, len), "{address:05X}");
    }
}

/// Whether a page is inside: on an image of 42 a read gives 42 and a program of 02 changes the page
/// alone, or the read gives FF and the program is an error and changes nothing.
fn is_inside(mid: u8, high: u8) -> bool {
    let mut rig = open_over(0x42, 0);
    let page = rig.feed(&[0xFF, mid, high]);
    rig.feed(&page_program(mid, high, 0x02));
    let count = |byte| rig.image.iter().filter(|&&cell| cell == byte).count();
    let inside = rig.unit.srd == 0x80;
    let (read, changed) = if inside { (0x42, 256) } else { (0xFF, 0) };
    assert_eq!(page, [read; 256]);
    assert_eq!((count(0x02), count(0x42)), (changed, 20_480 - changed));
    assert_eq!(rig.unit.srd, if inside { 0x80 } else { 0x90 });
    inside
}

/// The block that a block erase on an image of 00 erases: it alone and whole. Where there is none
/// SRD is A0.
fn erased_block(protection: u8, mid: u8, high: u8) -> Option<usize> {
    let mut rig = open_over(0x00, protection);
    rig.feed(&[0x20, mid, high, 0xD0]);
    let erased = (0..4).find(|&block| rig.image[CELLS[block].start] == 0xFF);
    for (block, cells) in CELLS.into_iter().enumerate() {
        let expected = if erased == Some(block) { 0xFF } else { 0x00 };
        assert!(all_are(expected, &rig.image[cells]));
    }
    assert_eq!(rig.unit.srd, if erased.is_some() { 0x80 } else { 0xA0 });
    erased
}

#[test]
fn single_bytes_at_the_edges() {
    for (first, last) in BLOCKS {
        assert_permitted(1, &[first, last]);
    }
    assert_forbidden(1, &[0x0FFFF]);
    let outside = [
        0x00000, 0x01FFF, 0x03000, 0x0BFFF, 0x10000, 0x12000, 0x1C000, 0x1FFF0, 0xFFFFFF, 0xFFDF00,
    ];
    assert_forbidden(1, &outside);
}

#[test]
fn two_bytes_over_the_edges() {
    assert_forbidden(2, &[0x01FFF, 0x02FFF, 0x0BFFF, 0x0FFFE, 0x0FFFF]);
    assert_permitted(2, &[0x027FF, 0x0DFFF, 0x0FFFD]);
}

#[test]
fn a_protected_neighbour_stops_the_whole_program() {
    for (seam, left, right) in [(0x02800, 0, 1), (0x0E000, 2, 3)] {
        for protection in 0..=15 {
            let left_free = !is_protected(protection, left);
            let right_free = !is_protected(protection, right);
            let both_free = left_free && right_free;
            assert_eq!(permits(protection, seam - 1, 2), both_free);
            assert_eq!(permits(protection, seam - 100, 255), both_free);
            assert_eq!(permits(protection, seam - 255, 255), left_free);
            assert_eq!(permits(protection, seam, 255), right_free);
        }
    }
}

#[test]
fn the_end_of_the_bank_with_255_bytes() {
    assert_permitted(255, &[0x0FF00]);
    assert_forbidden(255, &[0x0FF01, 0x0FF02]);
    // A bank's end does not wrap to its beginning, nor the last address to the first.
    assert_forbidden(255, &[0xFFFFFF]);
    assert_forbidden(16, &[0xFF2000]);
}

#[test]
fn sizes_at_0fff0() {
    assert_permitted(0x0E, &[0x0FFF0]);
    assert_permitted(0x0F, &[0x0FFF0]);
    assert_forbidden(0x10, &[0x0FFF0]);
    assert_forbidden(0x11, &[0x0FFF0]);
}

#[test]
fn the_last_byte_of_the_bank_is_left_to_the_page_program() {
    let mut rig = open_over(0xFF, 0);
    let packet = unit_program(0x0FFFE, &[0x00]);
    assert_eq!(status_after(&mut rig, &packet), [0x80, 0x0C]);
    assert_eq!(rig.image[20_477..], [0xFF, 0x00, 0xFF]);
    let packet = unit_program(0x0FFFF, &[0x00]);
    assert_eq!(status_after(&mut rig, &packet), [0x90, 0x0C]);
    assert_eq!(rig.image[20_477..], [0xFF, 0x00, 0xFF]);
    rig.feed(&[0x50]);
    let packet = page_program(0xFF, 0x00, 0x00);
    assert_eq!(status_after(&mut rig, &packet), [0x80, 0x0C]);
    assert_eq!(rig.image[20_223..20_225], [0xFF, 0x00]);
    assert!(all_are(0x00, &rig.image[20_224..]));
}

#[test]
fn a_size_of_0_is_an_error_at_the_end_of_the_bank_too() {
    assert_forbidden(0, &[0x02000, 0x0FFF0, 0x0FFFE, 0x0FFFF]);
}

#[test]
fn the_ends_of_other_banks_are_outside() {
    for len in [0x01, 0x0E, 0x0F, 0x10, 0x11] {
        assert_forbidden(len, &[0x1FFF0, 0x2FFF0, 0xFFFFF0]);
    }
    assert!(!is_inside(0xFF, 0x01));
}

#[test]
fn pages_inside_and_outside() {
    for mid in 0..=0xFF {
        let inside = matches!(mid, 0x20..=0x2F | 0xC0..=0xFF);
        assert_eq!(is_inside(mid, 0x00), inside);
        for high in [0x01, 0x10, 0x80, 0xFF] {
            assert!(!is_inside(mid, high));
        }
    }
}

#[test]
fn a_page_goes_to_its_own_place_and_comes_back() {
    for (mid, offset) in [
        (0x20, 0),
        (0x27, 1792),
        (0x28, 2048),
        (0x2F, 3840),
        (0xC0, 4096),
        (0xDF, 12_032),
        (0xE0, 12_288),
        (0xFF, 20_224),
    ] {
        let mut rig = open_over(0xFF, 0);
        let data: Vec<u8> = (0..=255).collect();
        rig.feed(&[0x41, mid, 0x00]);
        rig.feed(&data);
        assert_eq!(rig.unit.srd, 0x80);
        assert_eq!(rig.image[offset..offset + 256], data);
        assert!(all_are(0xFF, &rig.image[..offset]));
        assert!(all_are(0xFF, &rig.image[offset + 256..]));
        assert_eq!(rig.feed(&[0xFF, mid, 0x00]), data);
    }
}

#[test]
fn block_erase_by_any_page_of_the_block() {
    for mid in 0..=0xFF {
        let block = match mid {
            0x20..=0x27 => Some(0),
            0x28..=0x2F => Some(1),
            0xC0..=0xDF => Some(2),
            0xE0..=0xFF => Some(3),
            _ => None,
        };
        for protection in [0, 1, 2, 4, 8, 15] {
            let free_block = block.filter(|&block| !is_protected(protection, block));
            assert_eq!(erased_block(protection, mid, 0x00), free_block);
        }
        assert_eq!(erased_block(0, mid, 0x01), None);
    }
}

#[test]
fn page_program_of_a_protected_block() {
    for (mid, bit) in [(0x20, 1), (0x2F, 2), (0xC0, 4), (0xDF, 4), (0xFF, 8)] {
        let mut rig = Rig::open(bit);
        let before = rig.image.clone();
        rig.feed(&page_program(mid, 0x00, 0x00));
        assert_eq!(rig.unit.srd, 0x90);
        assert_eq!(rig.image, before);
        let mut rig = Rig::open(15 - bit);
        rig.feed(&page_program(mid, 0x00, 0x00));
        assert_eq!(rig.unit.srd, 0x80);
    }
}
