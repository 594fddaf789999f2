//! Pages as arrays of 1024 bytes, and the numbers and marks on them.

use crate::page::{Kind, MAX_PAGES, MIN_PAGES, PAGE};

/// The bytes of one page.
pub type Page = [u8; PAGE];

/// The first bytes of a page: its mark, and the pages that it links.
pub type Head = [u8; HEAD];

/// How many these are.
pub const HEAD: usize = 16;

/// The bytes behind a head: the sizes of a span, the lowest entry of a tower.
pub type Behind = [u8; BEHIND];

/// How many these are.
pub const BEHIND: usize = 4;

/// The image as pages, if its length is that of an image.
pub fn pages(image: &[u8]) -> Option<&[Page]> {
    let (pages, rest) = image.as_chunks();
    (rest.is_empty() && is_count(pages.len())).then_some(pages)
}

/// The pages of an image that is to be written.
pub fn pages_mut(image: &mut [u8]) -> &mut [Page] {
    image.as_chunks_mut().0
}

/// The heads of so many pages in the scratch, and the bytes behind them.
pub fn heads(scratch: &mut [u8], pages: usize) -> (&mut [Head], &mut [Behind]) {
    let (heads, rest) = scratch.split_at_mut(HEAD * pages);
    (
        heads.as_chunks_mut().0,
        &mut rest.as_chunks_mut().0[..pages],
    )
}

fn is_count(pages: usize) -> bool {
    (MIN_PAGES..=MAX_PAGES).contains(&pages)
}

/// The page with this number, 1 to P.
#[inline]
pub fn page(pages: &[Page], number: u32) -> &Page {
    &pages[number as usize - 1]
}

/// The page with this number, 1 to P, to be written.
#[inline]
pub fn page_mut(pages: &mut [Page], number: u32) -> &mut Page {
    &mut pages[number as usize - 1]
}

/// The two-byte number at this offset.
#[inline]
pub fn u16_at(page: &[u8], offset: usize) -> u16 {
    let bytes = &page[offset..offset + 2];
    u16::from_be_bytes([bytes[0], bytes[1]])
}

/// The four-byte number at this offset.
#[inline]
pub fn u32_at(page: &[u8], offset: usize) -> u32 {
    let bytes = &page[offset..offset + 4];
    u32::from_be_bytes([bytes[0], bytes[1], bytes[2], bytes[3]])
}

/// Writes a two-byte number.
#[inline]
pub fn set_u16(page: &mut Page, offset: usize, number: u16) {
    page[offset..offset + 2].copy_from_slice(&number.to_be_bytes());
}

/// Writes a four-byte number.
#[inline]
pub fn set_u32(page: &mut Page, offset: usize, number: u32) {
    page[offset..offset + 4].copy_from_slice(&number.to_be_bytes());
}

/// Whether the page bears the mark of this kind.
#[inline]
pub fn bears(page: &[u8], kind: Kind) -> bool {
    page.starts_with(kind.mark())
}

/// Writes the mark of this kind.
pub fn set_mark(page: &mut Page, kind: Kind) {
    let mark = kind.mark();
    page[..mark.len()].copy_from_slice(mark);
}

/// The continuation page that a span's page or a continuation page names, or 0. Both kinds hold
/// it at the same offset.
#[inline]
pub fn link(page: &Page) -> u32 {
    u32_at(page, LINK)
}

/// Writes the link that `link` reads.
pub fn set_link(page: &mut Page, number: u32) {
    set_u32(page, LINK, number);
}

const LINK: usize = crate::page::span::CONTINUATION;
const _: () = assert!(LINK == crate::page::continuation::NEXT);
