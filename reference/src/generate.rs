//! Well-formed images that no call made, from a seed.
//!
//! Tables are drafted first, with all page numbers 0, as far as a budget of pages allows; then
//! every page gets its number, the pages left become the free list, and the layout is written over
//! garbage.

use crate::encode;
use crate::entries::{self, Entry, Place, MAX_LENGTH};
use crate::layout::{Block, Layout, Span, Table, Tower};
use crate::numbers;
use crate::page::{self, Kind, MARKS, MAX_NUMBERS, METAINDEX, PAGE};
use crate::random::Random;
use crate::sort::Sort;
use std::collections::BTreeSet;
use std::ops::RangeInclusive;

/// The fewest pages of a table: a skip-list page, a span and a head.
const TABLE_PAGES: usize = 3;

/// What kind of image is wanted.
#[derive(Clone, Debug)]
pub struct Knobs {
    /// P.
    pub pages: RangeInclusive<usize>,
    /// Tables wanted; some images have none.
    pub tables: RangeInclusive<usize>,
    /// Spans wanted in a table.
    pub spans: RangeInclusive<usize>,
    /// The span sizes to choose from.
    pub span_sizes: Vec<u16>,
    /// Entries wanted in a span.
    pub fill: RangeInclusive<usize>,
    /// Of a hundred values, how many end so that fewer than `NEAR_END` bytes are left on the page.
    pub near_page_end: usize,
    /// Of a hundred keys and values, how many are long.
    pub long: usize,
    /// The length of long keys and values.
    pub long_length: RangeInclusive<usize>,
    /// Of a hundred spans, how many have a tower where that is possible.
    pub towers: usize,
    /// Of a hundred heads, how many have the greatest max height, with any current up to it.
    pub high: usize,
    /// Of a hundred images, how many have no page or few pages free.
    pub crowded: usize,
}

/// An image with its layout.
#[derive(Clone, Debug)]
pub struct Sample {
    pub image: Vec<u8>,
    pub layout: Layout,
}

impl Knobs {
    /// Images of 4 to 12 pages.
    pub fn tiny() -> Knobs {
        Knobs {
            pages: 4..=12,
            tables: 1..=2,
            spans: 1..=3,
            span_sizes: vec![2, 2, 3, 128],
            fill: 1..=4,
            near_page_end: 30,
            long: 5,
            long_length: 900..=3000,
            towers: 50,
            high: 0,
            crowded: 60,
        }
    }

    /// Images of 6 to 16 pages with many entries over several pages.
    pub fn tiny_long() -> Knobs {
        Knobs {
            pages: 6..=16,
            long: 25,
            crowded: 25,
            ..Knobs::tiny()
        }
    }

    /// Some of everything, in images of moderate size.
    pub fn mixed() -> Knobs {
        Knobs {
            pages: 8..=60,
            tables: 1..=5,
            spans: 1..=8,
            span_sizes: vec![2, 2, 3, 4, 16, 128],
            fill: 1..=8,
            near_page_end: 30,
            long: 6,
            long_length: 500..=5000,
            towers: 50,
            high: 0,
            crowded: 50,
        }
    }

    /// Many small entries.
    pub fn many_small() -> Knobs {
        Knobs {
            fill: 1..=128,
            near_page_end: 0,
            long: 0,
            span_sizes: vec![2, 3, 16, 64, 127, 128],
            ..Knobs::mixed()
        }
    }

    /// Few large entries, up to the greatest lengths.
    pub fn few_large() -> Knobs {
        Knobs {
            pages: 80..=400,
            tables: 1..=2,
            spans: 1..=3,
            fill: 1..=3,
            near_page_end: 20,
            long: 50,
            long_length: 1000..=MAX_LENGTH,
            ..Knobs::mixed()
        }
    }

    /// Many spans and nearly as many towers.
    pub fn full_of_towers() -> Knobs {
        Knobs {
            pages: 20..=120,
            tables: 1..=2,
            spans: 4..=50,
            span_sizes: vec![2, 3],
            fill: 1..=2,
            near_page_end: 5,
            long: 1,
            towers: 85,
            ..Knobs::mixed()
        }
    }

    /// Towers as no put makes them, in the metaindex too, which has many names: most heads are high, and
    /// over any of their levels there are towers and spans without one.
    pub fn odd_towers() -> Knobs {
        Knobs {
            pages: 30..=120,
            tables: 1..=16,
            spans: 1..=16,
            span_sizes: vec![2, 2, 3],
            towers: 70,
            high: 60,
            ..Knobs::full_of_towers()
        }
    }

    /// Images of 12 to 40 pages with many towers and many entries over several pages.
    pub fn towers_long() -> Knobs {
        Knobs {
            pages: 12..=40,
            long: 25,
            long_length: 900..=3000,
            crowded: 25,
            ..Knobs::full_of_towers()
        }
    }

    /// More free pages than one block lists.
    pub fn long_free_list() -> Knobs {
        Knobs {
            pages: 270..=600,
            tables: 1..=3,
            long: 30,
            crowded: 0,
            ..Knobs::mixed()
        }
    }

    /// Images of up to 4096 pages.
    pub fn big() -> Knobs {
        Knobs {
            pages: 600..=page::MAX_PAGES,
            tables: 1..=12,
            spans: 1..=300,
            towers: 40,
            crowded: 40,
            ..Knobs::mixed()
        }
    }

    /// One of these, mostly for small images.
    pub fn any(random: &mut Random) -> Knobs {
        match random.below(200) {
            0..=64 => Knobs::tiny(),
            65..=124 => Knobs::mixed(),
            125..=149 => Knobs::many_small(),
            150..=171 => Knobs::full_of_towers(),
            172..=179 => Knobs::odd_towers(),
            180..=190 => Knobs::long_free_list(),
            191..=198 => Knobs::few_large(),
            _ => Knobs::big(),
        }
    }
}

/// A well-formed image of the kind wanted.
pub fn sample(random: &mut Random, knobs: &Knobs) -> Sample {
    let layout = layout(random, knobs);
    over_garbage(random, layout)
}

/// A well-formed image of the kind wanted with no page free.
pub fn full(random: &mut Random, knobs: &Knobs) -> Sample {
    let layout = full_layout(random, knobs);
    over_garbage(random, layout)
}

/// The layout of an image of the kind wanted with no page free.
pub fn full_layout(random: &mut Random, knobs: &Knobs) -> Layout {
    let most = random.within(knobs.pages.clone());
    let (meta, tables) = draft_tables(random, knobs, most - 1);
    let pages = used(&meta, &tables);
    number(random, &knobs.span_sizes, pages, meta, tables)
}

/// The layout of an image of the kind wanted.
pub fn layout(random: &mut Random, knobs: &Knobs) -> Layout {
    let pages = random.within(knobs.pages.clone());
    let (meta, tables) = draft_tables(random, knobs, pages - 1);
    let used = used(&meta, &tables);
    let pages = choose_pages(random, knobs, used, pages);
    number(random, &knobs.span_sizes, pages, meta, tables)
}

/// A well-formed image with one table of exactly this many spans, each with as many keys as it can
/// have, under a head of this max height; so many pages are free.
pub fn full_spans(
    random: &mut Random,
    spans: usize,
    span_size: u16,
    max: usize,
    free: usize,
) -> Sample {
    let knobs = Knobs::full_of_towers();
    let names = names(random, 1);
    let sort = Sort::of(&names[0]);
    let meta = draft(random, &knobs, names, true, 2 * TABLE_PAGES);
    let mut table = Table {
        root: 0,
        span_size,
        head: full_head(random, max),
        spans: Vec::new(),
    };
    for place in 0..spans {
        let first = place * usize::from(span_size);
        let keys = first..first + usize::from(span_size);
        let tower = draft_tower(random, &knobs, &table.head, place == 0);
        let entry = |number: usize| Entry {
            key: odd_key(sort, number, spans * usize::from(span_size)),
            value: random.bytes(number % 3),
        };
        let entries: Vec<Entry> = keys.map(entry).collect();
        table.spans.push(Span {
            page: 0,
            continuations: vec![0; entries::continuations(&entries)],
            entries,
            tower,
        });
    }
    let tables = vec![table];
    let pages = used(&meta, &tables) + free;
    let layout = number(random, &[span_size], pages, meta, tables);
    over_garbage(random, layout)
}

/// A head of this max height; half of them are no higher than that of a created table can be.
fn full_head(random: &mut Random, max: usize) -> Tower {
    let most = *random.pick(&[max, max.min(12)]);
    tower(max, random.within(0..=most))
}

/// Key `place` of so many: odd numbers, so that there is room between them; in an offset table half of
/// them are below 0.
fn odd_key(sort: Sort, place: usize, count: usize) -> Vec<u8> {
    let below = match sort {
        Sort::Bytes => 0,
        Sort::Numbers => count - count % 2,
    };
    numbers::key(2 * place as i32 + 1 - below as i32)
}

/// The image of a layout, with garbage in its unused bytes.
fn over_garbage(random: &mut Random, layout: Layout) -> Sample {
    let mut image = garbage(random, layout.pages as usize);
    encode::layout(&mut image, &layout);
    Sample { image, layout }
}

/// The image with pages added at its end, which are a first free-list block and the pages that it
/// lists, so many.
pub fn with_first_block(random: &mut Random, sample: Sample, count: usize) -> Sample {
    let Sample {
        mut image,
        mut layout,
    } = sample;
    let page = layout.pages + 1;
    layout.pages += 1 + count as u32;
    let mut listed: Vec<u32> = (page + 1..=layout.pages).collect();
    random.shuffle(&mut listed);
    layout.free.insert(0, Block { page, listed });
    image.extend(garbage(random, 1 + count));
    encode::layout(&mut image, &layout);
    Sample { image, layout }
}

/// How many pages are used, the superblock among them.
fn used(meta: &Table, tables: &[Table]) -> usize {
    1 + cost(meta) + tables.iter().map(cost).sum::<usize>()
}

/// The layout of drafted tables in an image of this many pages: every page gets its number, and the
/// pages left are free.
fn number(
    random: &mut Random,
    span_sizes: &[u16],
    pages: usize,
    mut meta: Table,
    mut tables: Vec<Table>,
) -> Layout {
    let mut unused: Vec<u32> = (3..=pages as u32).collect();
    if random.percent(85) {
        random.shuffle(&mut unused);
    } else {
        unused.reverse();
    }
    number_pages(&mut meta, &mut unused);
    meta.root = METAINDEX;
    for table in &mut tables {
        table.root = unused.pop().expect("a page for every skip list");
        number_pages(table, &mut unused);
    }
    let names = name_tables(&mut meta, &tables);
    let (mounted, count_kept) = *random.pick(&[(0, false), (0, true), (1, false), (1, true)]);
    Layout {
        pages: pages as u32,
        mounted,
        span_size: *random.pick(span_sizes),
        count_kept,
        meta,
        tables: names.into_iter().zip(tables).collect(),
        free: free_list(random, unused),
    }
}

/// P, from the pages used and the pages first thought of: often there are few free pages or none.
fn choose_pages(random: &mut Random, knobs: &Knobs, used: usize, pages: usize) -> usize {
    if !random.percent(knobs.crowded) {
        return pages;
    }
    let few = *random.pick(&[0, 0, 1, 2, 3, 4, 8]);
    (used + few).min(pages)
}

/// The metaindex and its tables, without page numbers, on at most `budget` pages.
fn draft_tables(random: &mut Random, knobs: &Knobs, budget: usize) -> (Table, Vec<Table>) {
    let most = (budget - TABLE_PAGES) / TABLE_PAGES;
    let wanted = match random.percent(8) {
        true => 0,
        false => random.within(knobs.tables.clone()).min(most),
    };
    let names = names(random, wanted);
    let for_meta = budget - TABLE_PAGES * names.len();
    let meta = draft(random, knobs, names, true, for_meta);
    let mut rest = budget - cost(&meta) - TABLE_PAGES * meta.keys();
    let mut tables = Vec::new();
    for name in meta.entries() {
        let share = match random.below(4) {
            0 => 0,
            1 => rest / 4,
            2 => rest / 2,
            _ => rest,
        };
        let keys = keys(random, Sort::of(&name.key), knobs);
        let table = draft(random, knobs, keys, false, TABLE_PAGES + share);
        rest -= cost(&table) - TABLE_PAGES;
        tables.push(table);
    }
    (meta, tables)
}

/// How many pages a table owns.
fn cost(table: &Table) -> usize {
    table.owners().len()
}

/// A table with these keys, or the first of them, without page numbers, on at most `budget` pages.
fn draft(
    random: &mut Random,
    knobs: &Knobs,
    keys: Vec<Vec<u8>>,
    is_meta: bool,
    budget: usize,
) -> Table {
    let mut table = Table {
        root: 0,
        span_size: *random.pick(&knobs.span_sizes),
        head: draft_head(random, knobs),
        spans: Vec::new(),
    };
    let most = usize::from(table.span_size);
    let mut keys = keys.into_iter().peekable();
    while table.spans.is_empty() || keys.peek().is_some() {
        let is_first = table.spans.is_empty();
        let size = match is_first && random.percent(20) {
            true => 0,
            false => random.within(knobs.fill.clone()).min(most),
        };
        let part = keys.by_ref().take(size).collect();
        let entries = draft_entries(random, knobs, part, is_meta);
        table.spans.push(Span {
            page: 0,
            continuations: vec![0; entries::continuations(&entries)],
            entries,
            tower: draft_tower(random, knobs, &table.head, is_first),
        });
        if cost(&table) > budget {
            break;
        }
    }
    shrink(&mut table, budget);
    table
}

/// Drops the last entries until the table fits.
fn shrink(table: &mut Table, budget: usize) {
    while cost(table) > budget {
        let is_only = table.spans.len() == 1;
        let last = table.spans.last_mut().expect("a first span");
        last.entries.pop();
        last.continuations
            .truncate(entries::continuations(&last.entries));
        if last.entries.is_empty() && !is_only {
            table.spans.pop();
        }
    }
}

/// A head of any legal height.
fn draft_head(random: &mut Random, knobs: &Knobs) -> Tower {
    let any = random.within(1..=MAX_NUMBERS);
    if random.percent(knobs.high) {
        return tower(MAX_NUMBERS, *random.pick(&[0, any, any, MAX_NUMBERS]));
    }
    let max = *random.pick(&[1, 2, 3, 4, 12, 12, 12, MAX_NUMBERS, any]);
    let height = match random.below(5) {
        0 => 0,
        1 => max,
        _ => random.within(0..=max.min(6)),
    };
    tower(max, height)
}

/// A tower for a span that is not the first, or none.
fn draft_tower(random: &mut Random, knobs: &Knobs, head: &Tower, is_first: bool) -> Option<Tower> {
    let highest = usize::from(head.height);
    if is_first || highest == 0 || !random.percent(knobs.towers) {
        return None;
    }
    let height = match random.below(4) {
        0 => highest,
        1 => random.within(1..=highest),
        _ => random.within(1..=highest.min(5)),
    };
    let max = match random.below(3) {
        0 => height,
        1 => usize::from(head.max),
        _ => random.within(height..=MAX_NUMBERS),
    };
    Some(tower(max, height))
}

fn tower(max: usize, height: usize) -> Tower {
    Tower {
        page: 0,
        max: max as u16,
        height: height as u16,
    }
}

/// Entries with these keys; in the metaindex the values are four bytes, set later.
fn draft_entries(
    random: &mut Random,
    knobs: &Knobs,
    keys: Vec<Vec<u8>>,
    is_meta: bool,
) -> Vec<Entry> {
    let mut place = Place::START;
    let mut entries = Vec::new();
    for key in keys {
        let value_at = place.after_entry(key.len(), 0);
        let length = match is_meta {
            true => 4,
            false => value_length(random, knobs, value_at),
        };
        place = value_at.after(length);
        let value = random.bytes(length);
        entries.push(Entry { key, value });
    }
    entries
}

/// The length of a value that begins at this place: short, long, or such that few bytes are left on
/// the page where it ends.
fn value_length(random: &mut Random, knobs: &Knobs, at: Place) -> usize {
    if random.percent(knobs.near_page_end) {
        return length_to_page_end(random, at);
    }
    if random.percent(knobs.long) {
        return long_length(random, knobs);
    }
    *random.pick(&[0, 1, 4, 32, 40])
}

/// So many bytes or more left on a page are not few. With up to eight, the lengths of the next entry
/// and a key of four bytes end the page, are cut at each byte, or go to the next page.
pub const NEAR_END: usize = 9;

/// A length after which few bytes are left on a page.
pub fn length_to_page_end(random: &mut Random, at: Place) -> usize {
    let left = random.below(NEAR_END);
    let here = if at.left() < left {
        at.left() + PAGE - page::continuation::DATA
    } else {
        at.left()
    };
    here - left + (PAGE - page::continuation::DATA) * *random.pick(&[0, 0, 0, 1, 2])
}

fn long_length(random: &mut Random, knobs: &Knobs) -> usize {
    if *knobs.long_length.end() == MAX_LENGTH && random.percent(15) {
        return MAX_LENGTH;
    }
    random.within(knobs.long_length.clone())
}

/// Distinct table names in rising order.
fn names(random: &mut Random, wanted: usize) -> Vec<Vec<u8>> {
    let mut names = BTreeSet::new();
    while names.len() < wanted {
        names.insert(name(random));
    }
    names.into_iter().collect()
}

/// Names that begin with "#", and one that only has it.
pub const HASH_NAMES: [&[u8]; 5] = [b"#", b"#a", b"##", b"#sync", b"a#"];

/// A legal table name; one in four is that of an offset table.
pub fn name(random: &mut Random) -> Vec<u8> {
    if random.percent(20) {
        return random.pick(&HASH_NAMES).to_vec();
    }
    let length = match random.below(10) {
        0 => 255,
        1 => random.within(100..=254),
        2 => 1,
        _ => random.within(1..=8),
    };
    let few: &[u8] = &[0x21, 0x7e, b'a', b'#', b'l'];
    let any = random.percent(30);
    let byte = |_| match any {
        true => random.within(0x21..=0x7e) as u8,
        false => *random.pick(few),
    };
    (0..length).map(byte).collect()
}

/// Distinct keys in rising order, for the spans wanted.
fn keys(random: &mut Random, sort: Sort, knobs: &Knobs) -> Vec<Vec<u8>> {
    let spans = random.within(knobs.spans.clone());
    let wanted = match random.below(8) {
        0 => 0,
        _ => (0..spans).map(|_| random.within(knobs.fill.clone())).sum(),
    };
    match sort {
        Sort::Bytes => rising_bytes(random, knobs, wanted),
        Sort::Numbers => numbers::rising(random, wanted),
    }
}

/// So many keys, or fewer where some come twice, in the order of their bytes.
fn rising_bytes(random: &mut Random, knobs: &Knobs, wanted: usize) -> Vec<Vec<u8>> {
    let mut keys = BTreeSet::new();
    let mut last = Vec::new();
    for _ in 0..wanted {
        let key = match random.below(4) {
            0 => longer(random, &last),
            _ => key_of_bytes(random, knobs),
        };
        last.clone_from(&key);
        keys.insert(key);
    }
    keys.into_iter().collect()
}

/// A key that has another as a proper prefix.
fn longer(random: &mut Random, key: &[u8]) -> Vec<u8> {
    let mut longer = key.to_vec();
    longer.truncate(MAX_LENGTH - 1);
    longer.push(*random.pick(&[0x00, 0x7f, 0x80, 0xff]));
    longer
}

/// A key that a table which sorts so may hold.
pub fn key(random: &mut Random, sort: Sort, knobs: &Knobs) -> Vec<u8> {
    match sort {
        Sort::Bytes => key_of_bytes(random, knobs),
        Sort::Numbers => numbers::any_key(random),
    }
}

/// A key of few different bytes, so that keys are near to one another.
fn key_of_bytes(random: &mut Random, knobs: &Knobs) -> Vec<u8> {
    let few: &[u8] = &[0x00, 0x01, 0x7f, 0x80, 0xff, b'c', b'a'];
    if random.percent(knobs.long / 2) {
        let mut key = vec![*random.pick(few); long_length(random, knobs)];
        let at = random.below(key.len());
        key[at] = *random.pick(few);
        return key;
    }
    let length = random.within(1..=6);
    (0..length).map(|_| *random.pick(few)).collect()
}

/// Gives every page of a table but the skip-list page its number.
fn number_pages(table: &mut Table, unused: &mut Vec<u32>) {
    let mut number = || unused.pop().expect("a page for every use");
    table.head.page = number();
    for span in &mut table.spans {
        span.page = number();
        for continuation in &mut span.continuations {
            *continuation = number();
        }
        if let Some(tower) = &mut span.tower {
            tower.page = number();
        }
    }
}

/// Sets the values in the metaindex, and gives the names in order.
fn name_tables(meta: &mut Table, tables: &[Table]) -> Vec<Vec<u8>> {
    let entries = meta.spans.iter_mut().flat_map(|span| &mut span.entries);
    let mut names = Vec::new();
    for (entry, table) in entries.zip(tables) {
        entry.value = table.root.to_be_bytes().to_vec();
        names.push(entry.key.clone());
    }
    names
}

/// A free list of exactly these pages: one block or many, empty, full or between.
fn free_list(random: &mut Random, mut unused: Vec<u32>) -> Vec<Block> {
    let style = random.below(5);
    let mut blocks = Vec::new();
    while let Some(page) = unused.pop() {
        let most = unused.len().min(MAX_NUMBERS);
        let count = match style {
            0 => 0,
            1 => most,
            2 => *random.pick(&[0, 0, 1, 2, most]),
            3 => *random.pick(&[most, most, most / 2, 0]),
            _ => random.within(0..=most),
        };
        let count = count.min(most);
        let listed = unused.split_off(unused.len() - count);
        blocks.push(Block { page, listed });
    }
    if random.percent(60) {
        random.shuffle(&mut blocks);
    }
    blocks
}

/// An image's unused bytes: zero, random, or pages that look like others.
fn garbage(random: &mut Random, pages: usize) -> Vec<u8> {
    let mut image = vec![0; PAGE * pages];
    let style = random.below(4);
    if style > 0 {
        random.fill(&mut image);
    }
    if style > 1 {
        for number in 1..=pages as u32 {
            let kind: Kind = random.pick(&MARKS).0;
            page::write_mark(&mut image, number, kind);
        }
    }
    image
}
