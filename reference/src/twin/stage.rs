//! Staging a span's pages: how far its entries reach, writing them, and copying them to the image.

use super::entry::Run;
use super::page::{link, page, page_mut, set_link, set_mark, set_u16, Page};
use crate::page::{continuation, span, Kind, PAGE};

/// Bytes of an entry: on the image, or lent by the caller.
#[derive(Clone, Copy)]
pub enum Bytes<'a> {
    Stored(Run),
    Lent(&'a [u8]),
}

impl Bytes<'_> {
    pub fn length(&self) -> usize {
        match self {
            Bytes::Stored(run) => run.length,
            Bytes::Lent(bytes) => bytes.len(),
        }
    }
}

/// Writes entries on staged pages, one after the other.
pub struct Writer<'a> {
    staged: &'a mut [Page],
    page: usize,
    offset: usize,
}

impl<'a> Writer<'a> {
    /// A writer at the start of a span that begins on the first staged page.
    pub fn new(staged: &'a mut [Page]) -> Writer<'a> {
        Writer {
            staged,
            page: 0,
            offset: span::ENTRIES,
        }
    }

    /// Goes to the start of a span that begins on this staged page.
    pub fn begin(&mut self, page: usize) {
        self.page = page;
        self.offset = span::ENTRIES;
    }

    /// The staged page on which the entries written so far end.
    pub fn last(&self) -> usize {
        self.page
    }

    /// Goes to the next page, a continuation page.
    fn turn(&mut self) {
        self.page += 1;
        self.offset = continuation::DATA;
        set_mark(&mut self.staged[self.page], Kind::Continuation);
    }

    /// Writes the next entry.
    pub fn entry(&mut self, pages: &[Page], key: Bytes, value: Bytes) {
        if PAGE - self.offset < 4 {
            self.turn();
        }
        let page = &mut self.staged[self.page];
        set_u16(page, self.offset, key.length() as u16);
        set_u16(page, self.offset + 2, value.length() as u16);
        self.offset += 4;
        self.bytes(pages, key);
        self.bytes(pages, value);
    }

    fn bytes(&mut self, pages: &[Page], bytes: Bytes) {
        match bytes {
            Bytes::Lent(bytes) => self.slice(bytes),
            Bytes::Stored(run) => run.parts(pages).for_each(|part| self.slice(part)),
        }
    }

    fn slice(&mut self, bytes: &[u8]) {
        let mut rest = bytes;
        while !rest.is_empty() {
            if self.offset == PAGE {
                self.turn();
            }
            let count = rest.len().min(PAGE - self.offset);
            let (here, later) = rest.split_at(count);
            self.staged[self.page][self.offset..][..count].copy_from_slice(here);
            self.offset += count;
            rest = later;
        }
    }
}

/// The bytes of entries on a page, counted from offset 8, where they are on a continuation page.
const DATA: usize = PAGE - continuation::DATA;

/// Where the entries of a span begin, counted in `DATA` bytes a page.
pub const START: usize = span::ENTRIES - continuation::DATA;

/// Where an entry ends that has this many bytes of key and value and begins at or after a place:
/// its lengths lie on one page.
pub fn after_entry(place: usize, bytes: usize) -> usize {
    let left = DATA - place % DATA;
    let moved = if left < 4 { left } else { 0 };
    place + moved + 4 + bytes
}

/// How many pages entries reach that end here.
pub fn reach(end: usize) -> usize {
    end.div_ceil(DATA)
}

/// Links staged pages to the continuation pages, in their order, of the span on page `number`; gives
/// the first of these that is left, or 0.
pub fn keep_chain(pages: &[Page], staged: &mut [Page], number: u32) -> u32 {
    let mut next = link(page(pages, number));
    for staged in staged {
        set_link(staged, next);
        next = link(page(pages, next));
    }
    next
}

/// Copies a span's staged pages to the image, the first to page `number` and the others where
/// their links say, and makes them zero.
pub fn copy_chain(pages: &mut [Page], staged: &mut [Page], number: u32) {
    let mut number = number;
    for page in staged {
        *page_mut(pages, number) = *page;
        number = link(page);
        page.fill(0);
    }
}
