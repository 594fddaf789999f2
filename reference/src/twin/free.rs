//! Take and give back, drawing the pages that a call wants, and the kept count of the free pages.

use super::page::{link, page, page_mut, set_link, set_mark, set_u32, u32_at, Page};
use crate::page::{block, listed_number, superblock, Kind, MAX_NUMBERS, SUPERBLOCK};

fn first_block(pages: &[Page]) -> u32 {
    u32_at(page(pages, SUPERBLOCK), superblock::FIRST_BLOCK)
}

fn set_first_block(pages: &mut [Page], number: u32) {
    set_u32(page_mut(pages, SUPERBLOCK), superblock::FIRST_BLOCK, number);
}

/// The kept count that is true of so many free pages.
fn true_count(free: u64) -> u32 {
    free as u32 + 1
}

/// Whether the superblock keeps no count, or the true one.
pub fn legal_count(superblock: &Page, free: u64) -> bool {
    let kept = u32_at(superblock, superblock::KEPT_COUNT);
    kept == 0 || kept == true_count(free)
}

/// Keeps the count of so many free pages.
pub fn keep_count(pages: &mut [Page], free: u64) {
    let superblock = page_mut(pages, SUPERBLOCK);
    set_u32(superblock, superblock::KEPT_COUNT, true_count(free));
}

/// Takes a page; there must be a free one.
pub fn take(pages: &mut [Page]) -> u32 {
    let first = first_block(pages);
    let block = page_mut(pages, first);
    let count = u32_at(block, block::COUNT);
    let Some(rest) = count.checked_sub(1) else {
        let next = u32_at(block, block::NEXT);
        set_first_block(pages, next);
        return first;
    };
    set_u32(block, block::COUNT, rest);
    u32_at(block, listed_number(rest as usize))
}

/// Gives a page back.
pub fn give_back(pages: &mut [Page], given: u32) {
    let first = first_block(pages);
    let count = match first {
        0 => MAX_NUMBERS,
        _ => u32_at(page(pages, first), block::COUNT) as usize,
    };
    if count < MAX_NUMBERS {
        set_mark(page_mut(pages, given), Kind::Free);
        let block = page_mut(pages, first);
        set_u32(block, listed_number(count), given);
        set_u32(block, block::COUNT, count as u32 + 1);
    } else {
        let block = page_mut(pages, given);
        set_mark(block, Kind::Block);
        set_u32(block, block::NEXT, first);
        set_u32(block, block::COUNT, 0);
        set_first_block(pages, given);
    }
}

/// Gives the pages of a chain of continuation pages back, in its order; gives how many they are.
pub fn give_back_chain(pages: &mut [Page], first: u32) -> u64 {
    let mut given = 0;
    let mut number = first;
    while number != 0 {
        let next = link(page(pages, number));
        give_back(pages, number);
        given += 1;
        number = next;
    }
    given
}

/// How many pages a chain of continuation pages has.
pub fn count_chain(pages: &[Page], first: u32) -> u64 {
    let mut count = 0;
    let mut number = first;
    while number != 0 {
        count += 1;
        number = link(page(pages, number));
    }
    count
}

/// Where the next pages come from: first the old continuation pages, then by taking.
pub struct Draw {
    /// The first old continuation page that is left, or 0.
    old: u32,
    /// F after the call.
    free: u64,
}

impl Draw {
    /// Draws first from the old continuation pages that begin with this one; so many pages are free when
    /// all is drawn and the rest given back.
    pub fn from(old: u32, free: u64) -> Draw {
        Draw { old, free }
    }

    /// Draws a page.
    pub fn one(&mut self, pages: &mut [Page]) -> u32 {
        if self.old == 0 {
            return take(pages);
        }
        let number = self.old;
        self.old = link(page(pages, number));
        number
    }

    /// Draws a page after each staged one, and links it.
    pub fn chain(&mut self, pages: &mut [Page], staged: &mut [Page]) {
        for page in staged {
            set_link(page, self.one(pages));
        }
    }

    /// What is left over is given back in chain order; gives F after the call.
    pub fn give_back_rest(self, pages: &mut [Page]) -> u64 {
        give_back_chain(pages, self.old);
        self.free
    }
}
