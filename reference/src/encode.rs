//! Writes a layout into an image: every used byte of it, and no unused one.

use crate::entries;
use crate::layout::{Block, Layout, Table, Tower};
use crate::page::{
    self, block, continuation, skip_list, span, superblock, tower, Kind, MAX_NUMBERS, PAGE,
    SUPERBLOCK,
};

/// Writes the whole layout.
pub fn layout(image: &mut [u8], layout: &Layout) {
    superblock(image, layout);
    free_list(image, &layout.free);
    for table in layout.all_tables() {
        self::table(image, table);
    }
}

/// Writes the superblock.
fn superblock(image: &mut [u8], layout: &Layout) {
    let length = PAGE as u64 * u64::from(layout.pages);
    let first = layout.free.first().map_or(0, |block| block.page);
    page::write_mark(image, SUPERBLOCK, Kind::Superblock);
    page::write(image, SUPERBLOCK, superblock::MAJOR, &[1]);
    page::write(image, SUPERBLOCK, superblock::MINOR, &[2]);
    page::write(
        image,
        SUPERBLOCK,
        superblock::FILE_LENGTH,
        &length.to_be_bytes(),
    );
    page::write_u32(image, SUPERBLOCK, superblock::FIRST_BLOCK, first);
    page::write_u16(image, SUPERBLOCK, superblock::MOUNTED, layout.mounted);
    page::write_u16(image, SUPERBLOCK, superblock::SPAN_SIZE, layout.span_size);
    page::write_u32(image, SUPERBLOCK, superblock::PAGE_SIZE, PAGE as u32);
    page::write_u32(
        image,
        SUPERBLOCK,
        superblock::KEPT_COUNT,
        layout.kept_count(),
    );
}

/// Writes the free-list blocks and the marks of the pages they list.
fn free_list(image: &mut [u8], blocks: &[Block]) {
    for (place, one) in blocks.iter().enumerate() {
        let next = blocks.get(place + 1).map_or(0, |next| next.page);
        page::write_mark(image, one.page, Kind::Block);
        page::write_u32(image, one.page, block::NEXT, next);
        page::write_u32(image, one.page, block::COUNT, one.listed.len() as u32);
        for (place, &listed) in one.listed.iter().enumerate() {
            page::write_u32(image, one.page, page::listed_number(place), listed);
            page::write_mark(image, listed, Kind::Free);
        }
    }
}

/// Writes all pages of a table.
fn table(image: &mut [u8], table: &Table) {
    skip_list(image, table);
    for place in 0..table.spans.len() {
        span(image, table, place);
    }
    let mut next = [0; MAX_NUMBERS];
    for span in table.spans.iter().rev() {
        if let Some(one) = &span.tower {
            tower(image, one, span.page, &next);
            next[..usize::from(one.height)].fill(one.page);
        }
    }
    tower(image, &table.head, table.spans[0].page, &next);
}

/// Writes the skip-list page of a table.
pub fn skip_list(image: &mut [u8], table: &Table) {
    let root = table.root;
    page::write_mark(image, root, Kind::SkipList);
    page::write_u32(image, root, skip_list::FIRST_SPAN, table.spans[0].page);
    page::write_u32(image, root, skip_list::FIRST_LEVEL, table.head.page);
    counts(image, table);
    page::write_u16(image, root, skip_list::SPAN_SIZE, table.span_size);
}

/// Writes "the skip-list page's three counts".
pub fn counts(image: &mut [u8], table: &Table) {
    let root = table.root;
    page::write_u32(image, root, skip_list::SIZE, table.keys() as u32);
    page::write_u32(image, root, skip_list::SPANS, table.spans.len() as u32);
    page::write_u32(image, root, skip_list::LEVELS, table.levels() as u32);
}

/// Writes a span's page and its continuation pages.
pub fn span(image: &mut [u8], table: &Table, place: usize) {
    let one = &table.spans[place];
    let pages = one.pages();
    page::write_mark(image, one.page, Kind::Span);
    page::write_u32(image, one.page, span::CONTINUATION, next_in(&pages, 0));
    links(image, table, place);
    page::write_u16(image, one.page, span::MAX_KEYS, table.span_size);
    page::write_u16(image, one.page, span::SIZE, one.entries.len() as u16);
    for (place, &number) in pages.iter().enumerate().skip(1) {
        page::write_mark(image, number, Kind::Continuation);
        page::write_u32(image, number, continuation::NEXT, next_in(&pages, place));
    }
    entries::write(image, &pages, &one.entries);
}

/// The page after this one in a chain, or 0.
fn next_in(pages: &[u32], place: usize) -> u32 {
    pages.get(place + 1).copied().unwrap_or(0)
}

/// Writes a span's previous and next links.
pub fn links(image: &mut [u8], table: &Table, place: usize) {
    let page_at = |place: usize| table.spans.get(place).map_or(0, |span| span.page);
    let number = table.spans[place].page;
    let previous = place.checked_sub(1).map_or(0, page_at);
    page::write_u32(image, number, span::PREVIOUS, previous);
    page::write_u32(image, number, span::NEXT, page_at(place + 1));
}

/// Writes a tower of the span on page `span`; `next` holds its entries.
pub fn tower(image: &mut [u8], one: &Tower, span: u32, next: &[u32]) {
    page::write_mark(image, one.page, Kind::Tower);
    page::write_u16(image, one.page, tower::MAX_HEIGHT, one.max);
    page::write_u16(image, one.page, tower::CURRENT, one.height);
    page::write_u32(image, one.page, tower::SPAN, span);
    for (level, &number) in next.iter().enumerate().take(usize::from(one.height)) {
        page::write_u32(image, one.page, page::tower_entry(level), number);
    }
}
