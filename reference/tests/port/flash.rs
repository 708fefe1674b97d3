//! The flash functions on their own.

use reference::flash::{block_at, is_protected, offset_at, page, programmable};

#[test]
fn every_address_of_the_first_bank() {
    let mut next = 0;
    for address in 0..0x10000 {
        let block = match address {
            0x2000..=0x27FF => Some(0),
            0x2800..=0x2FFF => Some(1),
            0xC000..=0xDFFF => Some(2),
            0xE000..=0xFFFF => Some(3),
            _ => None,
        };
        assert_eq!(block_at(address), block);
        // Inside addresses number the image's bytes in order.
        assert_eq!(offset_at(address), block.map(|_| next));
        next += usize::from(block.is_some());
    }
    assert_eq!(next, 20_480);
    for address in (0x10000..0x1000000).step_by(0x3FD) {
        assert_eq!((block_at(address), offset_at(address)), (None, None));
    }
}

#[test]
fn the_page_is_the_part_of_the_lent_image() {
    let image: Vec<u8> = (0..20_480u32).map(|i| (i >> 8) as u8).collect();
    assert_eq!(page(&image, 0x20, 0), &[0; 256]);
    assert_eq!(page(&image, 0x2F, 0), &[15; 256]);
    assert_eq!(page(&image, 0xC0, 0), &[16; 256]);
    assert_eq!(page(&image, 0xFF, 0), &[79; 256]);
    assert!(std::ptr::eq(page(&image, 0xE0, 0), &image[12_288..12_544]));
}

#[test]
fn no_page_outside_or_of_a_wrong_sized_image() {
    let image = vec![0; 20_480];
    for (mid, high) in [(0x1F, 0), (0x30, 0), (0xBF, 0), (0x20, 1), (0xFF, 0xFF)] {
        assert!(page(&image, mid, high).is_empty());
    }
    assert!(page(&image[1..], 0x20, 0).is_empty());
    assert!(page(&vec![0; 20_481], 0x20, 0).is_empty());
    assert!(page(&[], 0x20, 0).is_empty());
}

/// The rule of document 01 and Item 3, byte by byte.
fn permitted(protection: u8, address: u32, len: usize, bank_end: u32) -> bool {
    len != 0
        && (address & 0xFFFF) + len as u32 <= bank_end
        && (address..address + len as u32)
            .all(|a| block_at(a).is_some_and(|block| !is_protected(protection, block)))
}

#[test]
fn the_two_ends_speak_for_what_lies_between() {
    let seams = [
        0x02000, 0x02800, 0x03000, 0x0C000, 0x0E000, 0x10000, 0x12000, 0x1000000,
    ];
    for seam in seams {
        let ends = [seam - 256, seam - 255, seam - 1, seam];
        for address in (seam - 300..seam + 300).step_by(7).chain(ends) {
            for len in [0, 1, 2, 16, 17, 254, 255, 256] {
                for protection in [0, 1, 2, 4, 8, 10, 15] {
                    // Unit program and page program.
                    for bank_end in [65_535, 65_536] {
                        let cells = programmable(protection, address, len, bank_end);
                        let expected = permitted(protection, address, len, bank_end);
                        assert_eq!(cells.is_some(), expected);
                        if let Some(cells) = cells {
                            assert_eq!(Some(cells.start), offset_at(address));
                            assert_eq!(cells.len(), len);
                            let last = address + len as u32 - 1;
                            assert_eq!(Some(cells.end - 1), offset_at(last));
                        }
                    }
                }
            }
        }
    }
}
