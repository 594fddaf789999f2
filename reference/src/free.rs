//! Take and give back, as document 01 states them on the bytes of a well-formed image, and the kept
//! count of the free pages.

use crate::page::{self, block, superblock, Kind, MAX_NUMBERS, SUPERBLOCK};

/// "Take: the last listed page of the first block, its count less one; where the count is 0, the
/// block itself, and the superblock points to its next." There must be a free page.
pub fn take(image: &mut [u8]) -> u32 {
    let first = page::read_u32(image, SUPERBLOCK, superblock::FIRST_BLOCK);
    assert_ne!(first, 0, "a page is taken only where one is free");
    let count = page::read_u32(image, first, block::COUNT);
    if count == 0 {
        let next = page::read_u32(image, first, block::NEXT);
        page::write_u32(image, SUPERBLOCK, superblock::FIRST_BLOCK, next);
        return first;
    }
    page::write_u32(image, first, block::COUNT, count - 1);
    page::read_u32(image, first, page::listed_number(count as usize - 1))
}

/// "Give back: where the first block has count below 252, mark the page free and append it; else
/// the page becomes the first block with count 0, next the old first. Other bytes of a given page
/// stay."
pub fn give_back(image: &mut [u8], given: u32) {
    let first = page::read_u32(image, SUPERBLOCK, superblock::FIRST_BLOCK);
    let count = match first {
        0 => MAX_NUMBERS,
        _ => page::read_u32(image, first, block::COUNT) as usize,
    };
    if count < MAX_NUMBERS {
        page::write_mark(image, given, Kind::Free);
        page::write_u32(image, first, page::listed_number(count), given);
        page::write_u32(image, first, block::COUNT, count as u32 + 1);
    } else {
        page::write_mark(image, given, Kind::Block);
        page::write_u32(image, given, block::NEXT, first);
        page::write_u32(image, given, block::COUNT, 0);
        page::write_u32(image, SUPERBLOCK, superblock::FIRST_BLOCK, given);
    }
}

/// F, "listed pages plus free-list blocks", as the blocks themselves say.
fn count(image: &[u8]) -> u32 {
    let mut free = 0;
    let mut number = page::read_u32(image, SUPERBLOCK, superblock::FIRST_BLOCK);
    while number != 0 {
        free += 1 + page::read_u32(image, number, block::COUNT);
        number = page::read_u32(image, number, block::NEXT);
    }
    free
}

/// "Keep it in superblock bytes 28–31: 0 means not kept, otherwise it is F plus 1" (document 02, T-06):
/// writes the true figure.
pub fn keep_count(image: &mut [u8]) {
    let kept = count(image) + 1;
    page::write_u32(image, SUPERBLOCK, superblock::KEPT_COUNT, kept);
}
