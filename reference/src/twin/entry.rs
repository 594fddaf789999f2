//! Reading entries: places in a span's pages, and bytes that run on over them.

use super::page::{link, page, u16_at, Page};
use crate::page::{continuation, span, PAGE};

/// The length of an entry's two lengths.
pub const LENGTHS: usize = 4;

/// A place on a span's page or one of its continuation pages; the offset is 1024 where the page
/// is full.
#[derive(Clone, Copy, Debug)]
pub struct Place {
    pub page: u32,
    pub offset: usize,
}

/// Bytes that begin at a place and run on over continuation pages.
#[derive(Clone, Copy, Debug)]
pub struct Run {
    pub at: Place,
    pub length: usize,
}

/// One key with its value.
#[derive(Clone, Copy, Debug)]
pub struct Entry {
    pub key: Run,
    pub value: Run,
}

impl Place {
    /// Where the entries of the span on this page begin.
    #[inline]
    pub fn start(page: u32) -> Place {
        let offset = span::ENTRIES;
        Place { page, offset }
    }

    /// The place after this many bytes. `turn` gives the page after one.
    #[inline]
    fn after(self, count: usize, turn: &mut impl FnMut(u32) -> Option<u32>) -> Option<Place> {
        let mut place = self;
        place.offset += count;
        while place.offset > PAGE {
            place.page = turn(place.page)?;
            place.offset -= PAGE - continuation::DATA;
        }
        Some(place)
    }

    /// Where the lengths of the entry at or after this place lie.
    #[inline]
    fn lengths(self, turn: &mut impl FnMut(u32) -> Option<u32>) -> Option<Place> {
        if self.offset + LENGTHS <= PAGE {
            return Some(self);
        }
        let offset = continuation::DATA;
        turn(self.page).map(|page| Place { page, offset })
    }
}

/// The entry at or after a place, and the place after it. `turn` gives the page after one, or
/// `None` to stop.
pub fn read(
    pages: &[Page],
    at: Place,
    turn: &mut impl FnMut(u32) -> Option<u32>,
) -> Option<(Entry, Place)> {
    let at = at.lengths(turn)?;
    let (key, value) = lengths_at(page(pages, at.page), at.offset)?;
    let key_at = at.after(LENGTHS, turn)?;
    let value_at = key_at.after(key, turn)?;
    let end = value_at.after(value, turn)?;
    let run = |at, length| Run { at, length };
    let (key, value) = (run(key_at, key), run(value_at, value));
    Some((Entry { key, value }, end))
}

/// The first key of a span that is not empty.
pub fn first_key(pages: &[Page], number: u32) -> Run {
    let mut at = Place::start(number);
    let length = usize::from(u16_at(page(pages, number), at.offset));
    at.offset += LENGTHS;
    Run { at, length }
}

/// The lengths of key and value at this offset, if they lie on the page.
#[inline(always)]
pub fn lengths_at(page: &Page, offset: usize) -> Option<(usize, usize)> {
    let bytes = page.get(offset..)?.first_chunk()?;
    let both = u32::from_be_bytes(*bytes) as usize;
    Some((both >> 16, both & 0xffff))
}

/// The entries of a span on an accepted image.
#[derive(Clone, Debug)]
pub struct Entries<'a> {
    pages: &'a [Page],
    at: Place,
    left: u16,
}

impl<'a> Entries<'a> {
    /// Those of the span on this page.
    pub fn of(pages: &'a [Page], number: u32) -> Entries<'a> {
        Entries {
            pages,
            at: Place::start(number),
            left: u16_at(page(pages, number), span::SIZE),
        }
    }
}

impl Iterator for Entries<'_> {
    type Item = Entry;

    fn next(&mut self) -> Option<Entry> {
        self.left = self.left.checked_sub(1)?;
        let pages = self.pages;
        let turn = &mut |from| Some(link(page(pages, from)));
        let (entry, after) = read(pages, self.at, turn)?;
        self.at = after;
        Some(entry)
    }
}

impl Run {
    /// The bytes of the run on its first page, not empty unless the run is.
    #[inline]
    pub fn part<'a>(&mut self, pages: &'a [Page]) -> &'a [u8] {
        if self.at.offset == PAGE && self.length > 0 {
            self.at.page = link(page(pages, self.at.page));
            self.at.offset = continuation::DATA;
        }
        let count = self.length.min(PAGE - self.at.offset);
        &page(pages, self.at.page)[self.at.offset..][..count]
    }

    /// Leaves out the first bytes, all of them on the first page.
    #[inline]
    pub fn advance(&mut self, count: usize) {
        self.at.offset += count;
        self.length -= count;
    }

    /// The bytes page by page.
    pub fn parts(mut self, pages: &[Page]) -> impl Iterator<Item = &[u8]> {
        std::iter::from_fn(move || {
            let part = self.part(pages);
            self.advance(part.len());
            (!part.is_empty()).then_some(part)
        })
    }

    /// Copies the bytes to the start of `into`, which is long enough.
    pub fn copy_to(self, pages: &[Page], into: &mut [u8]) {
        let mut rest = into;
        for part in self.parts(pages) {
            let (here, later) = rest.split_at_mut(part.len());
            here.copy_from_slice(part);
            rest = later;
        }
    }
}
