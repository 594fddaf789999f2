//! How put, remove and create change bytes.
//!
//! Put and create work out what becomes of the target span, draw the pages wanted, bring the
//! table's layout up to date, and write what document 01 names. A remove takes no page: what is left
//! of the span fits on the pages that the span has.

use crate::encode;
use crate::entries::{self, Entry};
use crate::free;
use crate::layout::{Layout, Span, Table, Tower};
use crate::page;
use crate::sort::Sort;

/// "Put, create: wanted pages exceed the old continuation pages plus F"; for remove "10 is no longer
/// listed" (document 02, T-07).
#[derive(Debug, PartialEq, Eq)]
pub struct NoRoom;

/// The pages that a create wants last: "a skip-list page, a span and a head tower".
const NEW_TABLE: usize = 3;

/// The max height of a created table's head.
const NEW_HEAD_MAX: u16 = 12;

/// What becomes of the target span of a put.
struct Plan {
    /// The place of the target span.
    place: usize,
    /// The entries that stay.
    lower: Vec<Entry>,
    /// On a split, the rest and the height of the new tower.
    split: Option<(Vec<Entry>, u16)>,
}

/// Pages drawn, in the order wanted, and the old continuation pages left over.
struct Drawn {
    pages: std::vec::IntoIter<u32>,
    left_over: Vec<u32>,
}

/// Puts a value under a key of a table that sorts so.
pub fn put(
    image: &mut [u8],
    free: usize,
    table: &mut Table,
    sort: Sort,
    key: &[u8],
    value: &[u8],
) -> Result<(), NoRoom> {
    let plan = plan_put(table, sort, key, value);
    let mut drawn = draw(image, free, table, &plan, 0)?;
    let split = plan.split.is_some();
    let place = settle(table, plan, &mut drawn);
    write_target(image, table, place, split);
    give_back_all(image, &drawn.left_over);
    Ok(())
}

/// Removes a key that is there from a table that sorts so. "Taking an entry out never makes the others
/// reach further, page breaks included" (document 02, T-07): those left have the first of the span's
/// continuation pages, and the others are given back.
pub fn remove(image: &mut [u8], table: &mut Table, sort: Sort, key: &[u8]) {
    let place = table.target(sort, key);
    let span = &mut table.spans[place];
    span.entries.retain(|entry| entry.key != key);
    if span.entries.is_empty() && place != 0 {
        unlink(image, table, place);
        return;
    }
    let kept = entries::continuations(&span.entries);
    let left_over = span.continuations.split_off(kept);
    write_span_whole(image, table, place);
    encode::counts(image, table);
    give_back_all(image, &left_over);
}

/// "Create is a put of the name into the metaindex that also wants, last, a skip-list page, a span
/// and a head tower: span size from the superblock, max height 12, current 0."
pub fn create(image: &mut [u8], layout: &mut Layout, name: &[u8]) -> Result<(), NoRoom> {
    let free = layout.free_pages();
    let meta = &mut layout.meta;
    let plan = plan_put(meta, Sort::Bytes, name, &[0; 4]);
    let mut drawn = draw(image, free, meta, &plan, NEW_TABLE)?;
    let split = plan.split.is_some();
    let place = settle(meta, plan, &mut drawn);
    let table = new_table(&mut drawn, layout.span_size);
    set_value(meta, name, table.root);
    write_target(image, meta, place, split);
    write_new_table(image, &table);
    give_back_all(image, &drawn.left_over);
    Ok(())
}

/// "A key present has its value replaced. A new key joins its target; if the target is at max
/// keys, it is split."
fn plan_put(table: &Table, sort: Sort, key: &[u8], value: &[u8]) -> Plan {
    let place = table.target(sort, key);
    let mut entries = table.spans[place].entries.clone();
    let found = entries.binary_search_by(|entry| sort.compare(&entry.key, key));
    let full = entries.len() == usize::from(table.span_size);
    let value = value.to_vec();
    let split = match found {
        Ok(at) => {
            entries[at].value = value;
            None
        }
        Err(at) => {
            let key = key.to_vec();
            entries.insert(at, Entry { key, value });
            full.then(|| (upper_half(&mut entries), new_height(table)))
        }
    };
    Plan {
        place,
        lower: entries,
        split,
    }
}

/// "Of the n entries, the new one counted, the lower n/2 rounded up stay, the rest form a new
/// span directly after."
fn upper_half(entries: &mut Vec<Entry>) -> Vec<Entry> {
    entries.split_off(entries.len().div_ceil(2))
}

/// The height of the tower of a split in this table.
fn new_height(table: &Table) -> u16 {
    tower_height(table.spans.len() + 1, table.head.max)
}

/// "With m the table's spans after the split, the new tower's height is the number of trailing
/// zero bits of m, at most the head's max height."
pub fn tower_height(m: usize, head_max: u16) -> u16 {
    (m.trailing_zeros() as u16).min(head_max)
}

/// How many pages the plan wants: "the span's continuation pages; on a split the new span, its
/// continuation pages, its tower".
fn wanted(plan: &Plan) -> usize {
    let split = plan.split.as_ref().map_or(0, |(upper, height)| {
        1 + entries::continuations(upper) + usize::from(*height > 0)
    });
    entries::continuations(&plan.lower) + split
}

/// By how many a create's "wanted pages exceed the old continuation pages plus F"; 0 where there is
/// room.
pub fn create_lacks(layout: &Layout, name: &[u8]) -> usize {
    let plan = plan_put(&layout.meta, Sort::Bytes, name, &[0; 4]);
    let old = layout.meta.spans[plan.place].continuations.len();
    (wanted(&plan) + NEW_TABLE).saturating_sub(old + layout.free_pages())
}

/// "They are drawn first from the span's old continuation pages in chain order, then by taking."
/// `more` pages are wanted beyond the plan's.
fn draw(
    image: &mut [u8],
    free: usize,
    table: &Table,
    plan: &Plan,
    more: usize,
) -> Result<Drawn, NoRoom> {
    let old = &table.spans[plan.place].continuations;
    let wanted = wanted(plan) + more;
    if wanted > old.len() + free {
        return Err(NoRoom);
    }
    let (reused, left_over) = old.split_at(wanted.min(old.len()));
    let mut pages = reused.to_vec();
    while pages.len() < wanted {
        pages.push(free::take(image));
    }
    Ok(Drawn {
        pages: pages.into_iter(),
        left_over: left_over.to_vec(),
    })
}

impl Drawn {
    fn one(&mut self) -> u32 {
        self.pages.next().expect("as many pages as wanted")
    }

    fn for_entries(&mut self, entries: &[Entry]) -> Vec<u32> {
        let count = entries::continuations(entries);
        self.pages.by_ref().take(count).collect()
    }
}

/// Carries the plan out on the table's layout, with the pages drawn in the order wanted. Gives
/// the place of the target span.
fn settle(table: &mut Table, plan: Plan, drawn: &mut Drawn) -> usize {
    let target = &mut table.spans[plan.place];
    target.continuations = drawn.for_entries(&plan.lower);
    target.entries = plan.lower;
    if let Some((entries, height)) = plan.split {
        let new = Span {
            page: drawn.one(),
            continuations: drawn.for_entries(&entries),
            entries,
            tower: (height > 0).then(|| Tower {
                page: drawn.one(),
                max: table.head.max,
                height,
            }),
        };
        table.spans.insert(plan.place + 1, new);
        table.head.height = table.head.height.max(height);
    }
    plan.place
}

/// Writes the target span, on a split the new span and its tower, and the counts. The target is
/// written whole also where the key that joins it goes on to the new span and the entries that
/// stay are the old ones (span size 2).
fn write_target(image: &mut [u8], table: &Table, place: usize, split: bool) {
    write_span_whole(image, table, place);
    if split {
        write_span_whole(image, table, place + 1);
        if place + 2 < table.spans.len() {
            encode::links(image, table, place + 2);
        }
        write_new_tower(image, table, place + 1);
    }
    encode::counts(image, table);
}

/// "A span whose entries change, a new span, their continuation pages are written whole, zero
/// where unused."
fn write_span_whole(image: &mut [u8], table: &Table, place: usize) {
    for number in table.spans[place].pages() {
        page::bytes_mut(image, number).fill(0);
    }
    encode::span(image, table, place);
}

/// Writes the tower of a new span, if it has one: "It links into levels 0 up to its height less
/// one; the head's current rises to it if lower."
fn write_new_tower(image: &mut [u8], table: &Table, place: usize) {
    let Some(tower) = &table.spans[place].tower else {
        return;
    };
    let levels = 0..usize::from(tower.height);
    let next: Vec<u32> = levels
        .clone()
        .map(|level| table.tower_after(place, level))
        .collect();
    page::bytes_mut(image, tower.page).fill(0);
    encode::tower(image, tower, table.spans[place].page, &next);
    for level in levels {
        let before = table.tower_before(place, level).page;
        page::write_u32(image, before, page::tower_entry(level), tower.page);
    }
    let head = &table.head;
    page::write_u16(image, head.page, page::tower::CURRENT, head.height);
}

/// "A span left empty that is not the first is unlinked, its tower (if any) too, and given back:
/// continuation pages in chain order, span, tower. It is not rewritten first."
fn unlink(image: &mut [u8], table: &mut Table, place: usize) {
    let span = table.spans.remove(place);
    encode::links(image, table, place - 1);
    if place < table.spans.len() {
        encode::links(image, table, place);
    }
    let mut given = span.continuations;
    given.push(span.page);
    if let Some(tower) = span.tower {
        for level in 0..usize::from(tower.height) {
            let before = table.tower_before(place, level).page;
            let after = table.tower_after(place - 1, level);
            page::write_u32(image, before, page::tower_entry(level), after);
        }
        given.push(tower.page);
    }
    encode::counts(image, table);
    give_back_all(image, &given);
}

/// "What is left over is given back in chain order."
fn give_back_all(image: &mut [u8], pages: &[u32]) {
    for &number in pages {
        free::give_back(image, number);
    }
}

/// The empty table that a create makes of the last three pages.
fn new_table(drawn: &mut Drawn, span_size: u16) -> Table {
    let root = drawn.one();
    let span = Span {
        page: drawn.one(),
        continuations: Vec::new(),
        entries: Vec::new(),
        tower: None,
    };
    let head = Tower {
        page: drawn.one(),
        max: NEW_HEAD_MAX,
        height: 0,
    };
    Table {
        root,
        span_size,
        head,
        spans: vec![span],
    }
}

/// Sets the value of a name in the metaindex: "four bytes, the table's skip-list page".
fn set_value(meta: &mut Table, name: &[u8], root: u32) {
    let spans = meta.spans.iter_mut();
    let entry = spans
        .flat_map(|span| span.entries.iter_mut())
        .find(|entry| entry.key == name)
        .expect("the name was just put");
    entry.value = root.to_be_bytes().to_vec();
}

/// Writes the three pages of a new table whole.
fn write_new_table(image: &mut [u8], table: &Table) {
    page::bytes_mut(image, table.root).fill(0);
    encode::skip_list(image, table);
    write_span_whole(image, table, 0);
    page::bytes_mut(image, table.head.page).fill(0);
    encode::tower(image, &table.head, table.spans[0].page, &[]);
}
