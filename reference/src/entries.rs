//! Entries: where their bytes lie on a span's page and its continuation pages.

use crate::page::{self, continuation, span, PAGE};

/// One key with its value.
#[derive(Clone, Debug, PartialEq, Eq)]
pub struct Entry {
    pub key: Vec<u8>,
    pub value: Vec<u8>,
}

/// "Key 1 to 65,535 bytes, value 0 to 65,535."
pub const MAX_LENGTH: usize = 65_535;

/// A place in the pages of one span.
#[derive(Clone, Copy, Debug, PartialEq, Eq, PartialOrd, Ord)]
pub struct Place {
    /// 0 for the span's own page, n for its n-th continuation page.
    pub page: usize,
    /// The offset on that page; 1024 where the page is full.
    pub offset: usize,
}

impl Place {
    /// "Entries from 20."
    pub const START: Place = Place {
        page: 0,
        offset: span::ENTRIES,
    };

    /// How many bytes are left on the page.
    pub fn left(self) -> usize {
        PAGE - self.offset
    }

    /// "Offset 8 of the next continuation page."
    pub fn next_page(self) -> Place {
        Place {
            page: self.page + 1,
            offset: continuation::DATA,
        }
    }

    /// Where the four length bytes of the next entry lie: "The four length bytes lie on one page.
    /// With 1 to 3 bytes left they move to offset 8 of the next continuation page; with none left
    /// likewise."
    pub fn lengths(self) -> Place {
        if self.left() < 4 {
            self.next_page()
        } else {
            self
        }
    }

    /// The place after this many bytes: "Key and value bytes run on at offset 8 of the next
    /// continuation page."
    pub fn after(self, count: usize) -> Place {
        let mut place = self;
        let mut rest = count;
        while rest > place.left() {
            rest -= place.left();
            place = place.next_page();
        }
        place.offset += rest;
        place
    }

    /// The place after an entry with these lengths that begins at or after this place.
    pub fn after_entry(self, key: usize, value: usize) -> Place {
        self.lengths().after(4).after(key).after(value)
    }
}

/// The place after the last of these entries.
pub fn end(entries: &[Entry]) -> Place {
    end_from(Place::START, entries)
}

/// The place after the last of these entries, which begin at or after a place.
pub fn end_from(place: Place, entries: &[Entry]) -> Place {
    entries.iter().fold(place, |place, entry| {
        place.after_entry(entry.key.len(), entry.value.len())
    })
}

/// "A span has exactly as many continuation pages as its entries reach."
pub fn continuations(entries: &[Entry]) -> usize {
    end(entries).page
}

/// Reads bytes that run on over a span's pages; `None` where the pages end before the bytes do.
fn read_bytes(image: &[u8], pages: &[u32], from: Place, count: usize) -> Option<Vec<u8>> {
    if from.after(count).page >= pages.len() {
        return None;
    }
    let mut data = Vec::with_capacity(count);
    let mut place = from;
    while data.len() < count {
        if place.left() == 0 {
            place = place.next_page();
        }
        let part = place.left().min(count - data.len());
        let bytes = page::bytes(image, pages[place.page]);
        data.extend_from_slice(&bytes[place.offset..place.offset + part]);
        place.offset += part;
    }
    Some(data)
}

/// Reads the entry at or after a place, and gives the place after it; `None` where the span's
/// pages end before the entry does.
pub fn read(image: &[u8], pages: &[u32], from: Place) -> Option<(Entry, Place)> {
    let at = from.lengths();
    let number = *pages.get(at.page)?;
    let key_length = page::read_u16(image, number, at.offset) as usize;
    let value_length = page::read_u16(image, number, at.offset + 2) as usize;
    let key_at = at.after(4);
    let key = read_bytes(image, pages, key_at, key_length)?;
    let value_at = key_at.after(key_length);
    let value = read_bytes(image, pages, value_at, value_length)?;
    Some((Entry { key, value }, value_at.after(value_length)))
}

/// Writes bytes that run on over a span's pages.
fn write_bytes(image: &mut [u8], pages: &[u32], from: Place, data: &[u8]) {
    let mut place = from;
    let mut rest = data;
    while !rest.is_empty() {
        if place.left() == 0 {
            place = place.next_page();
        }
        let (part, later) = rest.split_at(place.left().min(rest.len()));
        page::write(image, pages[place.page], place.offset, part);
        place.offset += part.len();
        rest = later;
    }
}

/// Writes entries, one after the other, on a span's page and its continuation pages.
pub fn write(image: &mut [u8], pages: &[u32], entries: &[Entry]) {
    let mut place = Place::START;
    for entry in entries {
        let at = place.lengths();
        let (key, value) = (&entry.key, &entry.value);
        page::write_u16(image, pages[at.page], at.offset, key.len() as u16);
        page::write_u16(image, pages[at.page], at.offset + 2, value.len() as u16);
        let key_at = at.after(4);
        write_bytes(image, pages, key_at, key);
        write_bytes(image, pages, key_at.after(key.len()), value);
        place = place.after_entry(key.len(), value.len());
    }
}
