//! Put, remove and create on an accepted image.
//!
//! What becomes of the target span of a put or create is planned by lengths alone, so that a call
//! without room is refused before any write. Then the pages are drawn, the span's new pages are
//! staged in the scratch, which is zero, and copied to the image whole; the scratch is zero again
//! afterwards. A remove takes no page, so it stages what is left without a plan.

use super::entry::Entries;
use super::free;
use super::order::{Keys, Slices};
use super::page::{link, page, page_mut, set_mark, set_u16, set_u32, u16_at, u32_at, Page};
use super::plan::{change_counts, neighbours, size_of, write_span, write_tower, Plan};
use super::search::{self, Path, Table};
use super::stage::{self, Bytes, Writer};
use crate::calls::Refusal;
use crate::page::{skip_list, span, superblock, tower, tower_entry, Kind, SUPERBLOCK};

/// The pages that a create wants last: a skip-list page, a span and a head.
const NEW_TABLE: usize = 3;

/// The max height of a created table's head.
const NEW_HEAD_MAX: u16 = 12;

/// Puts a value under a key of a table; gives F after it.
pub fn put<K: Keys>(
    pages: &mut [Page],
    staged: &mut [Page],
    free: u64,
    table: Table,
    key: &[u8],
    value: &[u8],
) -> Result<u64, Refusal> {
    let plan = Plan::new::<K>(pages, table, key, value.len());
    let mut draw = plan.draw(pages, free, 0)?;
    let new = plan.link(pages, staged, &mut draw);
    plan.stage(pages, staged, value);
    plan.write(pages, staged, new);
    Ok(draw.give_back_rest(pages))
}

/// Creates a table: a put of the name into the metaindex that also wants, last, the table's pages.
/// Gives F after it.
pub fn create(
    pages: &mut [Page],
    staged: &mut [Page],
    free: u64,
    name: &[u8],
) -> Result<u64, Refusal> {
    let plan = Plan::new::<Slices>(pages, Table::metaindex(pages), name, 4);
    if plan.replaces() {
        return Err(Refusal::TableExists);
    }
    let mut draw = plan.draw(pages, free, NEW_TABLE)?;
    let new = plan.link(pages, staged, &mut draw);
    let root = draw.one(pages);
    plan.stage(pages, staged, &root.to_be_bytes());
    plan.write(pages, staged, new);
    let (span, head) = (draw.one(pages), draw.one(pages));
    write_new_table(pages, root, span, head);
    Ok(draw.give_back_rest(pages))
}

/// Removes a key; gives F after it.
pub fn remove<K: Keys>(
    pages: &mut [Page],
    staged: &mut [Page],
    free: u64,
    table: Table,
    key: &[u8],
) -> Result<u64, Refusal> {
    let target = table.target::<K>(pages, key).span;
    let spot = search::spot::<K>(pages, target, key);
    if spot.entry.is_none() {
        return Err(Refusal::NoSuchKey);
    }
    let given = if size_of(pages, target) == 1 && target != table.first_span {
        unlink::<K>(pages, table, key, target)
    } else {
        rewrite_without(pages, staged, table, target, spot.below)
    };
    Ok(free + given)
}

/// Writes a span without its entry at one place. The others reach no further than before, so they
/// keep the first of its continuation pages; what is left over is given back in chain order. Gives how
/// many pages these are.
fn rewrite_without(
    pages: &mut [Page],
    staged: &mut [Page],
    table: Table,
    number: u32,
    without: usize,
) -> u64 {
    let mut writer = Writer::new(staged);
    for (place, entry) in Entries::of(pages, number).enumerate() {
        if place != without {
            writer.entry(pages, Bytes::Stored(entry.key), Bytes::Stored(entry.value));
        }
    }
    let last = writer.last();
    let left_over = stage::keep_chain(pages, &mut staged[..last], number);
    let (previous, next) = neighbours(pages, number);
    let size = size_of(pages, number) - 1;
    write_span(&mut staged[0], previous, next, table.span_size, size);
    stage::copy_chain(pages, &mut staged[..=last], number);
    change_counts(pages, table.root, [-1, 0, 0]);
    free::give_back_chain(pages, left_over)
}

/// Writes the three pages of an empty table whole.
fn write_new_table(pages: &mut [Page], root: u32, span: u32, head: u32) {
    let span_size = u16_at(page(pages, SUPERBLOCK), superblock::SPAN_SIZE);
    for number in [root, span, head] {
        page_mut(pages, number).fill(0);
    }
    let list = page_mut(pages, root);
    set_mark(list, Kind::SkipList);
    set_u32(list, skip_list::FIRST_SPAN, span);
    set_u32(list, skip_list::FIRST_LEVEL, head);
    set_u32(list, skip_list::SPANS, 1);
    set_u32(list, skip_list::LEVELS, 1);
    set_u16(list, skip_list::SPAN_SIZE, span_size);
    let first = page_mut(pages, span);
    set_mark(first, Kind::Span);
    set_u16(first, span::MAX_KEYS, span_size);
    write_tower(pages, head, NEW_HEAD_MAX, 0, span);
}

/// Unlinks a span with this one key that is not the first, its tower (if any) too, and gives
/// their pages back: continuation pages in chain order, span, tower. Gives how many pages these are.
fn unlink<K: Keys>(pages: &mut [Page], table: Table, key: &[u8], number: u32) -> u64 {
    let path = table.before::<K>(pages, key);
    let next = u32_at(page(pages, number), span::NEXT);
    set_u32(page_mut(pages, path.span), span::NEXT, next);
    if next != 0 {
        set_u32(page_mut(pages, next), span::PREVIOUS, path.span);
    }
    let tower = unlink_tower(pages, &table, &path, number);
    let towers = if tower == 0 { 0 } else { -1 };
    change_counts(pages, table.root, [-1, -1, towers]);
    let first = link(page(pages, number));
    let given = free::give_back_chain(pages, first);
    free::give_back(pages, number);
    if tower == 0 {
        return given + 1;
    }
    free::give_back(pages, tower);
    given + 2
}

/// Takes the tower of a span out of its levels; gives its page, or 0 where the span has none.
fn unlink_tower(pages: &mut [Page], table: &Table, path: &Path, span: u32) -> u32 {
    if table.height == 0 {
        return 0;
    }
    let number = u32_at(page(pages, path.towers[0]), tower_entry(0));
    if number == 0 || search::span_of(pages, number) != span {
        return 0;
    }
    let height = usize::from(u16_at(page(pages, number), tower::CURRENT));
    for (level, &before) in path.towers[..height].iter().enumerate() {
        let offset = tower_entry(level);
        let after = u32_at(page(pages, number), offset);
        set_u32(page_mut(pages, before), offset, after);
    }
    number
}
