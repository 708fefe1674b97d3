//! The flash: four blocks in a 20,480-byte image, the ID bytes, the blank test, program and erase.

use std::ops::Range;

/// The only image size there is.
pub const IMAGE_LEN: usize = 20_480;
/// An image of the right size.
pub type Image = [u8; IMAGE_LEN];

pub const PAGE_LEN: usize = 256;
pub const ERASED: u8 = 0xFF;

/// Image offsets of blocks 0 to 3.
pub const BLOCKS: [Range<usize>; 4] = [0..2048, 2048..4096, 4096..12_288, 12_288..20_480];

/// Address of the first ID byte, the one an ID packet names.
pub const ID_ADDRESS: u32 = 0x0FFDF;
/// Addresses of the seven ID bytes.
pub const ID_ADDRESSES: [u32; 7] = [
    ID_ADDRESS, 0x0FFE3, 0x0FFEB, 0x0FFEF, 0x0FFF3, 0x0FFF7, 0x0FFFB,
];
/// Addresses that all hold FF in a blank image (0FFFF is not looked at).
pub const BLANK_ADDRESSES: [u32; 3] = [0x0FFFC, 0x0FFFD, 0x0FFFE];

/// The low 16 address bits plus the size of a page program are at most this: it may end with its
/// bank.
pub const PAGE_PROGRAM_END: u32 = 65_536;
/// The same for a unit program: it does not reach the last byte of its bank.
pub const UNIT_PROGRAM_END: u32 = 65_535;

/// The block that a 24-bit address lies in, or none if it is outside.
pub const fn block_at(address: u32) -> Option<usize> {
    match address {
        0x02000..=0x027FF => Some(0),
        0x02800..=0x02FFF => Some(1),
        0x0C000..=0x0DFFF => Some(2),
        0x0E000..=0x0FFFF => Some(3),
        _ => None,
    }
}

/// The image offset of a 24-bit address, or none if it is outside.
pub const fn offset_at(address: u32) -> Option<usize> {
    match address {
        0x02000..=0x02FFF => Some((address - 0x02000) as usize),
        0x0C000..=0x0FFFF => Some((address - 0x0C000) as usize + 4096),
        _ => None,
    }
}

/// The 24-bit address of three address bytes.
pub const fn address(low: u8, mid: u8, high: u8) -> u32 {
    u32::from_le_bytes([low, mid, high, 0])
}

/// Whether protection number `protection` protects block `block`.
pub const fn is_protected(protection: u8, block: usize) -> bool {
    protection >> block & 1 == 1
}

/// The page as the part of the image itself; empty if it is outside or the image has a wrong size.
pub fn page(image: &[u8], mid: u8, high: u8) -> &[u8] {
    match offset_at(address(0, mid, high)) {
        Some(offset) if image.len() == IMAGE_LEN => &image[offset..offset + PAGE_LEN],
        _ => &[],
    }
}

/// The byte at an inside address.
fn at(image: &Image, address: u32) -> Option<u8> {
    offset_at(address).map(|offset| image[offset])
}

pub fn is_blank(image: &Image) -> bool {
    BLANK_ADDRESSES
        .iter()
        .all(|&address| at(image, address) == Some(0xFF))
}

/// Whether `given` equals the seven ID bytes that the image holds now.
pub fn is_id(image: &Image, given: &[u8]) -> bool {
    given.len() == ID_ADDRESSES.len()
        && ID_ADDRESSES
            .iter()
            .zip(given)
            .all(|(&address, &byte)| at(image, address) == Some(byte))
}

/// Programs `data` from `address` on, if [`programmable`]. False means program error: either it was
/// not permitted and nothing is written, or all was written and some byte differs from its data.
pub fn program(
    image: &mut Image,
    protection: u8,
    address: u32,
    data: &[u8],
    bank_end: u32,
) -> bool {
    let Some(cells) = programmable(protection, address, data.len(), bank_end) else {
        return false;
    };
    let mut held = true;
    for (cell, &new) in image[cells].iter_mut().zip(data) {
        *cell &= new;
        held &= *cell == new;
    }
    held
}

/// The image offsets of `len` bytes from `address` on, if they may be programmed: at least one and
/// at most a page, the low 16 address bits plus `len` at most `bank_end`, none outside and none in
/// a protected block.
pub fn programmable(
    protection: u8,
    address: u32,
    len: usize,
    bank_end: u32,
) -> Option<Range<usize>> {
    if len == 0 || len > PAGE_LEN || (address & 0xFFFF) + len as u32 > bank_end {
        return None;
    }
    // No block and no gap is as short as a page, so the two ends speak for what lies between.
    let first = block_at(address)?;
    let last = block_at(address + len as u32 - 1)?;
    if is_protected(protection, first) || is_protected(protection, last) {
        return None;
    }
    let offset = offset_at(address)?;
    Some(offset..offset + len)
}

/// Erases the block that `address` lies in. False means erase error: outside or protected.
pub fn erase_block(image: &mut Image, protection: u8, address: u32) -> bool {
    match block_at(address) {
        Some(block) if !is_protected(protection, block) => {
            image[BLOCKS[block].clone()].fill(ERASED);
            true
        }
        _ => false,
    }
}

/// Erases every block that is not protected.
pub fn erase_all(image: &mut Image, protection: u8) {
    for (block, cells) in BLOCKS.into_iter().enumerate() {
        if !is_protected(protection, block) {
            image[cells].fill(ERASED);
        }
    }
}
