//! Images of a wanted size and kind, sound and hostile, the same each time.

use crate::encode;
use crate::entries::{self, Entry, MAX_LENGTH};
use crate::generate::Sample;
use crate::layout::{Block, Layout, Span, Table, Tower};
use crate::numbers;
use crate::page::{self, continuation, skip_list, span, MAX_NUMBERS, METAINDEX, PAGE};
use crate::random::Random;
use std::collections::BTreeSet;

/// The name of the table in images with one table, unless it is an offset table.
pub const NAME: &[u8] = b"bench";

/// The name of the offset table.
pub const OFFSETS_NAME: &[u8] = b"#bench";

/// What fills an image.
#[derive(Clone, Copy, Debug, PartialEq, Eq)]
pub enum Filling {
    /// Entries of 16 bytes, 126 in a span, with the towers that puts make.
    ManySmall,
    /// The same with spans of 126 keys at most, all of them full.
    FullSpans,
    /// Entries of seven bytes, 128 in a span: as many as an image of its size can have.
    ManyTiny,
    /// Entries of 24 bytes, with keys of 16 bytes, of which the first eight are the same; 126 in a span.
    SharedPrefixes,
    /// An offset table: entries of eight bytes, with random numbers as keys; 126 in a span, with the
    /// towers that puts make.
    Offsets,
    /// Serial numbers of this many bytes, of which the first half is the same for all; 126 in a span.
    Serials(usize),
    /// Spans of two small entries, with the towers that puts make.
    SmallSpans,
    /// The same with spans of two keys at most, all of them full.
    ManySpans,
    /// Spans of one small entry, with the towers that puts make.
    SingleKeys,
    /// Values of 65,535 bytes.
    FewLarge,
    /// Keys of 16,000 bytes that differ only at their ends.
    LongKeys,
    /// Spans of one entry, each with a tower of height 252.
    Towers,
    /// As many empty tables as there is room for.
    Tables,
    /// The same with spans of 16 names at most, all but the last of them full.
    FullNames,
    /// Free pages only.
    Free,
}

impl Filling {
    /// All fillings.
    pub const ALL: [Filling; 19] = [
        Filling::ManySmall,
        Filling::FullSpans,
        Filling::ManyTiny,
        Filling::SharedPrefixes,
        Filling::Offsets,
        Filling::Serials(16),
        Filling::Serials(24),
        Filling::Serials(32),
        Filling::Serials(64),
        Filling::Serials(200),
        Filling::SmallSpans,
        Filling::ManySpans,
        Filling::SingleKeys,
        Filling::FewLarge,
        Filling::LongKeys,
        Filling::Towers,
        Filling::Tables,
        Filling::FullNames,
        Filling::Free,
    ];

    /// What the rows call it.
    pub fn name(self) -> String {
        let name = match self {
            Filling::ManySmall => "many small entries",
            Filling::FullSpans => "full spans",
            Filling::ManyTiny => "many tiny entries",
            Filling::SharedPrefixes => "shared prefixes",
            Filling::Offsets => "offset table",
            Filling::Serials(length) => return format!("serial numbers of {length} bytes"),
            Filling::SmallSpans => "small spans",
            Filling::ManySpans => "one table of many spans",
            Filling::SingleKeys => "spans of one key",
            Filling::FewLarge => "few large entries",
            Filling::LongKeys => "long keys",
            Filling::Towers => "full of towers",
            Filling::Tables => "many tables",
            Filling::FullNames => "full metaindex",
            Filling::Free => "free pages",
        };
        name.to_owned()
    }

    /// Whether an image of this many pages has room for it.
    pub fn fits(self, pages: usize) -> bool {
        self != Filling::LongKeys || pages >= 64
    }

    /// Entry `place` of the table; that of an offset table gets its key when all are there.
    pub fn entry(self, place: usize) -> Entry {
        let key = match self {
            Filling::ManyTiny => (place as u32).to_be_bytes()[1..].to_vec(),
            Filling::SharedPrefixes => behind(8, place),
            Filling::Offsets => vec![0; 4],
            Filling::Serials(length) => serial(length, place),
            Filling::LongKeys => behind(16_000, place),
            _ => small_key(place),
        };
        let value = match self {
            Filling::FewLarge => MAX_LENGTH,
            Filling::LongKeys | Filling::ManyTiny => 0,
            _ => 4,
        };
        let value = vec![0x5a; value];
        Entry { key, value }
    }

    /// The span size and how many entries a span has: of the metaindex if there are many tables,
    /// else of the table.
    fn span_size(self) -> (u16, usize) {
        match self {
            Filling::ManySmall
            | Filling::SharedPrefixes
            | Filling::Offsets
            | Filling::Serials(_)
            | Filling::Free => (128, 126),
            Filling::FullSpans => (126, 126),
            Filling::ManyTiny => (128, 128),
            Filling::SmallSpans => (4, 2),
            Filling::ManySpans => (2, 2),
            Filling::SingleKeys => (4, 1),
            Filling::FewLarge | Filling::LongKeys => (4, 3),
            Filling::Towers => (2, 1),
            Filling::Tables => (128, 60),
            Filling::FullNames => (16, 16),
        }
    }

    /// The table that is filled: with many tables, the metaindex.
    pub fn table(self, layout: &Layout) -> &Table {
        match self {
            Filling::Tables | Filling::FullNames => &layout.meta,
            _ => &layout.tables[0].1,
        }
    }

    fn head(self) -> Tower {
        match self {
            Filling::Towers => tower(MAX_NUMBERS, MAX_NUMBERS),
            _ => tower(12, 12),
        }
    }

    /// The tower of the span at this place other than the first.
    fn tower(self, place: usize) -> Option<Tower> {
        let height = match self {
            Filling::Towers => MAX_NUMBERS,
            _ => (place + 1).trailing_zeros().min(12) as usize,
        };
        let max = usize::from(self.head().max);
        (height > 0).then(|| tower(max, height))
    }
}

/// Key `place`, of eight bytes. Odd numbers are left out, so that there is room between keys.
pub fn small_key(place: usize) -> Vec<u8> {
    format!("k{:07}", 2 * place).into_bytes()
}

/// Key `place` behind so many bytes that are the same for all.
fn behind(count: usize, place: usize) -> Vec<u8> {
    let mut key = vec![b'k'; count];
    key.extend(small_key(place));
    key
}

/// Key `place` as a serial number of this many bytes: the first half is the same for all, and the
/// second is a number with zeros before it.
fn serial(length: usize, place: usize) -> Vec<u8> {
    let same = length / 2;
    let digits = length - same;
    let mut key = vec![b'S'; same];
    key.extend(format!("{place:0digits$}").into_bytes());
    key
}

fn tower(max: usize, height: usize) -> Tower {
    Tower {
        page: 0,
        max: max as u16,
        height: height as u16,
    }
}

/// An image of this many pages that the filling fills up to `used` pages.
pub fn sample(filling: Filling, pages: usize, used: usize) -> Sample {
    let tables = match filling {
        Filling::Free => Vec::new(),
        Filling::Tables | Filling::FullNames => many_tables(filling, used - 4),
        Filling::Offsets => {
            let mut table = filled(filling, used - 4);
            set_offsets(&mut table);
            vec![(OFFSETS_NAME.to_vec(), table)]
        }
        _ => vec![(NAME.to_vec(), filled(filling, used - 4))],
    };
    let names = tables.iter().map(|(name, _)| name.clone()).collect();
    place(pages, names_table(filling, names), tables)
}

/// A table that fills at most this many pages, without page numbers.
fn filled(filling: Filling, budget: usize) -> Table {
    let (span_size, fill) = filling.span_size();
    let mut table = empty_table(span_size, filling.head());
    table.spans.clear();
    let mut cost = 2;
    for at in 0.. {
        let entries = (at * fill..(at + 1) * fill).map(|place| filling.entry(place));
        let span = Span {
            page: 0,
            continuations: Vec::new(),
            entries: entries.collect(),
            tower: if at == 0 { None } else { filling.tower(at) },
        };
        let tower = usize::from(span.tower.is_some());
        let span = shortened(span, budget.saturating_sub(cost + tower + 1));
        cost += 1 + span.continuations.len() + tower;
        if cost > budget || (at > 0 && span.entries.is_empty()) {
            break;
        }
        table.spans.push(span);
    }
    table
}

/// Gives the entries of a table random numbers as keys, of both signs. Odd numbers are left out, so that
/// there is room between keys.
fn set_offsets(table: &mut Table) {
    let mut random = Random::new(1);
    let mut numbers = BTreeSet::new();
    while numbers.len() < table.keys() {
        numbers.insert(random.next_u64() as i32 & !1);
    }
    let entries = table.spans.iter_mut().flat_map(|span| &mut span.entries);
    for (entry, number) in entries.zip(numbers) {
        entry.key = numbers::key(number);
    }
}

/// The span with its last entries left out, so that it has at most so many continuation pages;
/// where a single entry is too long, its value is shorter.
fn shortened(mut span: Span, most: usize) -> Span {
    while span.entries.len() > 1 && entries::continuations(&span.entries) > most {
        span.entries.pop();
    }
    while entries::continuations(&span.entries) > most && !span.entries[0].value.is_empty() {
        let value = &mut span.entries[0].value;
        value.truncate(value.len().saturating_sub(PAGE));
    }
    if entries::continuations(&span.entries) > most {
        span.entries.clear();
    }
    span.continuations = vec![0; entries::continuations(&span.entries)];
    span
}

fn empty_table(span_size: u16, head: Tower) -> Table {
    Table {
        root: 0,
        span_size,
        head,
        spans: vec![Span {
            page: 0,
            continuations: Vec::new(),
            entries: Vec::new(),
            tower: None,
        }],
    }
}

/// Empty tables on at most this many pages, those of their names counted.
fn many_tables(filling: Filling, budget: usize) -> Vec<(Vec<u8>, Table)> {
    let (_, names) = filling.span_size();
    let count = budget * names / (3 * names + 3);
    let table = || empty_table(16, tower(12, 0));
    let tables = (0..count).map(|place| (small_key(place), table()));
    tables.collect()
}

/// A metaindex with these names, all with the value 0.
fn names_table(filling: Filling, names: Vec<Vec<u8>>) -> Table {
    let (span_size, fill) = filling.span_size();
    let mut meta = empty_table(span_size, tower(12, 12));
    for (at, part) in names.chunks(fill).enumerate() {
        let entry = |name: &Vec<u8>| Entry {
            key: name.clone(),
            value: vec![0; 4],
        };
        let entries: Vec<Entry> = part.iter().map(entry).collect();
        let span = Span {
            page: 0,
            continuations: vec![0; entries::continuations(&entries)],
            entries,
            tower: None,
        };
        match at {
            0 => meta.spans[0] = span,
            _ => meta.spans.push(span),
        }
    }
    meta
}

/// Gives every page its number, in a random order, and writes the image; the pages that are left
/// are free.
fn place(pages: usize, mut meta: Table, mut tables: Vec<(Vec<u8>, Table)>) -> Sample {
    let mut unused: Vec<u32> = (3..=pages as u32).collect();
    Random::new(1).shuffle(&mut unused);
    meta.root = METAINDEX;
    number(&mut meta, &mut unused);
    for (_, table) in &mut tables {
        table.root = unused.pop().expect("a page for every skip list");
        number(table, &mut unused);
    }
    let names = meta.spans.iter_mut().flat_map(|span| &mut span.entries);
    for (entry, (_, table)) in names.zip(&tables) {
        entry.value = table.root.to_be_bytes().to_vec();
    }
    let layout = Layout {
        pages: pages as u32,
        mounted: 0,
        span_size: 128,
        count_kept: true,
        meta,
        tables,
        free: free_list(unused),
    };
    let mut image = vec![0; PAGE * pages];
    encode::layout(&mut image, &layout);
    Sample { image, layout }
}

fn number(table: &mut Table, unused: &mut Vec<u32>) {
    let mut number = || unused.pop().expect("a page for every use");
    table.head.page = number();
    for span in &mut table.spans {
        span.page = number();
        span.continuations.fill_with(&mut number);
        if let Some(tower) = &mut span.tower {
            tower.page = number();
        }
    }
}

/// Full blocks, but for the last one, of these pages.
fn free_list(mut unused: Vec<u32>) -> Vec<Block> {
    let mut blocks = Vec::new();
    while let Some(page) = unused.pop() {
        let count = unused.len().min(MAX_NUMBERS);
        let listed = unused.split_off(unused.len() - count);
        blocks.push(Block { page, listed });
    }
    blocks
}

/// Images of this many pages that are not well-formed, made so that this is seen late.
pub fn hostile(pages: usize) -> Vec<(&'static str, Vec<u8>)> {
    vec![
        ("ring of spans", ring_of_spans(pages)),
        ("ring of levels", ring_of_levels(pages)),
        ("ring of continuations", ring_of_continuations(pages)),
        ("names share a skip list", shared_skip_list(pages)),
        ("huge count of keys", huge_count(pages)),
        ("huge lengths", huge_lengths(pages)),
    ]
}

/// The last span of a full image leads back to the first.
fn ring_of_spans(pages: usize) -> Vec<u8> {
    let Sample { mut image, layout } = sample(Filling::ManySmall, pages, pages);
    let spans = &layout.tables[0].1.spans;
    let last = spans.last().expect("a span").page;
    page::write_u32(&mut image, last, span::NEXT, spans[0].page);
    image
}

/// The last tower of a full image leads back to the first one at every level.
fn ring_of_levels(pages: usize) -> Vec<u8> {
    let Sample { mut image, layout } = sample(Filling::Towers, pages, pages);
    let table = &layout.tables[0].1;
    let first = table.towers().next().expect("a tower").page;
    let last = table.towers().next_back().expect("a tower").page;
    for level in 0..MAX_NUMBERS {
        page::write_u32(&mut image, last, page::tower_entry(level), first);
    }
    image
}

/// A span whose last continuation page leads back to its first.
fn ring_of_continuations(pages: usize) -> Vec<u8> {
    let Sample { mut image, layout } = sample(Filling::FewLarge, pages, pages);
    let spans = &layout.tables[0].1.spans;
    let ring = &spans.last().expect("a span").continuations;
    let (first, last) = (ring[0], ring[ring.len() - 1]);
    page::write_u32(&mut image, last, continuation::NEXT, first);
    image
}

/// A metaindex that fills the image, with thousands of names for one skip list.
fn shared_skip_list(pages: usize) -> Vec<u8> {
    let names = (0..60 * (pages - 8)).map(small_key).collect();
    let table = empty_table(16, tower(12, 0));
    let Sample { mut image, layout } = place(
        pages,
        names_table(Filling::Tables, names),
        vec![(NAME.to_vec(), table)],
    );
    let root = layout.tables[0].1.root;
    let mut meta = layout.meta.clone();
    for span in &mut meta.spans {
        for entry in &mut span.entries {
            entry.value = root.to_be_bytes().to_vec();
        }
    }
    let layout = Layout { meta, ..layout };
    encode::layout(&mut image, &layout);
    image
}

/// A full image whose table says that it has 4,294,967,295 keys.
fn huge_count(pages: usize) -> Vec<u8> {
    let Sample { mut image, layout } = sample(Filling::ManySmall, pages, pages);
    let root = layout.tables[0].1.root;
    page::write_u32(&mut image, root, skip_list::SIZE, u32::MAX);
    image
}

/// A full image in whose last span the lengths of the first entry are the greatest.
fn huge_lengths(pages: usize) -> Vec<u8> {
    let Sample { mut image, layout } = sample(Filling::ManySmall, pages, pages);
    let last = layout.tables[0].1.spans.last().expect("a span").page;
    page::write_u32(&mut image, last, span::ENTRIES, u32::MAX);
    image
}
