//! Is an image well-formed, and if so, what does it say?
//!
//! The walk follows every chain from the superblock and from page 2, and owns each page it meets.
//! A page is followed only when it is first owned, so the walk ends on any bytes. It goes on after
//! a broken rule as far as it can; the layout it gathers counts only if no rule is broken.

use crate::entries::{self, Entry, Place};
use crate::layout::{Block, Layout, Span, Table, Tower};
use crate::page::{
    self, block, continuation, skip_list, span, superblock, tower, Kind, MAX_NUMBERS, METAINDEX,
    PAGE, SUPERBLOCK,
};
use crate::rule::{Broken, Rule};
use crate::sort::Sort;
use std::collections::{BTreeMap, BTreeSet};

/// The layout of a well-formed image, or every broken rule that was seen.
pub fn check(image: &[u8]) -> Result<Layout, Vec<Broken>> {
    let Some((layout, broken)) = walk(image) else {
        let (rule, page) = (Rule::ImageLength, 0);
        return Err(vec![Broken { rule, page }]);
    };
    if broken.is_empty() {
        Ok(layout)
    } else {
        Err(broken)
    }
}

/// What was gathered of the layout, and the broken rules; `None` for a length that no image has.
pub fn walk(image: &[u8]) -> Option<(Layout, Vec<Broken>)> {
    let pages = page::pages_of(image.len())?;
    let mut walk = Walk {
        image,
        pages,
        owner: vec![None; pages as usize + 1],
        broken: Vec::new(),
    };
    let layout = walk.layout();
    let mut seen = BTreeSet::new();
    walk.broken.retain(|broken| seen.insert(*broken));
    Some((layout, walk.broken))
}

/// "Table names, 1 to 255 bytes of 21 to 7e hex": the rules that a name breaks.
pub fn name_rules(name: &[u8]) -> Vec<Rule> {
    let mut broken = Vec::new();
    if !(1..=255).contains(&name.len()) {
        broken.push(Rule::NameLength);
    }
    if name.iter().any(|byte| !(0x21..=0x7e).contains(byte)) {
        broken.push(Rule::NameByte);
    }
    broken
}

/// A chain of pages: what they are owned as, the link to the next one, and the rules for links.
struct Chain {
    kind: Kind,
    next: fn(&[u8], u32) -> u32,
    range: Rule,
    end: Rule,
}

const BLOCKS: Chain = Chain {
    kind: Kind::Block,
    next: |image, number| page::read_u32(image, number, block::NEXT),
    range: Rule::NextBlockRange,
    end: Rule::BlockEnd,
};

const SPANS: Chain = Chain {
    kind: Kind::Span,
    next: |image, number| page::read_u32(image, number, span::NEXT),
    range: Rule::NextSpanRange,
    end: Rule::SpanEnd,
};

const CONTINUATIONS: Chain = Chain {
    kind: Kind::Continuation,
    next: |image, number| page::read_u32(image, number, continuation::NEXT),
    range: Rule::ContinuationRange,
    end: Rule::ContinuationEnd,
};

/// "The table's other towers are those on the chain from the head along entry 0." A tower with
/// current 0 has no entry 0.
const TOWERS: Chain = Chain {
    kind: Kind::Tower,
    next: |image, number| match page::read_u16(image, number, tower::CURRENT) {
        0 => 0,
        _ => page::read_u32(image, number, page::tower_entry(0)),
    },
    range: Rule::TowerEntryRange,
    end: Rule::LevelEnd,
};

/// The walk over one image.
struct Walk<'a> {
    image: &'a [u8],
    pages: u32,
    /// What each page is owned as, by page number.
    owner: Vec<Option<Kind>>,
    broken: Vec<Broken>,
}

impl Walk<'_> {
    /// Notes the rule as broken on this page unless it holds.
    fn expect(&mut self, holds: bool, rule: Rule, page: u32) {
        if !holds {
            self.broken.push(Broken { rule, page });
        }
    }

    fn u16(&self, page: u32, offset: usize) -> u16 {
        page::read_u16(self.image, page, offset)
    }

    fn u32(&self, page: u32, offset: usize) -> u32 {
        page::read_u32(self.image, page, offset)
    }

    /// "Page numbers are four-byte, 1 to P."
    fn in_range(&self, number: u32) -> bool {
        (1..=self.pages).contains(&number)
    }

    /// "Each of the P pages is owned exactly once" and "bears the mark of the kind it is owned
    /// as". False where the page has an owner already.
    fn own(&mut self, number: u32, kind: Kind) -> bool {
        let free = self.owner[number as usize].is_none();
        self.expect(free, Rule::OwnedTwice, number);
        if free {
            self.owner[number as usize] = Some(kind);
            let bears = page::bears(self.image, number, kind);
            self.expect(bears, mark_rule(kind), number);
        }
        free
    }

    /// Owns the page that a field names which may not be 0; false where that cannot be.
    fn own_named(&mut self, number: u32, kind: Kind, range: Rule, holder: u32) -> bool {
        self.expect(self.in_range(number), range, holder);
        self.in_range(number) && self.own(number, kind)
    }

    /// Follows a chain from `first`, the number that page `holder` holds, and owns its pages.
    fn follow(&mut self, chain: &Chain, holder: u32, first: u32) -> Vec<u32> {
        let mut pages = Vec::new();
        let (mut holder, mut number) = (holder, first);
        while number != 0 {
            if !self.in_range(number) {
                self.expect(false, chain.range, holder);
                break;
            }
            if self.owner[number as usize] == Some(chain.kind) && pages.contains(&number) {
                self.expect(false, chain.end, holder);
                break;
            }
            if !self.own(number, chain.kind) {
                break;
            }
            pages.push(number);
            holder = number;
            number = (chain.next)(self.image, number);
        }
        pages
    }

    /// Walks the whole image.
    fn layout(&mut self) -> Layout {
        self.own(SUPERBLOCK, Kind::Superblock);
        self.own(METAINDEX, Kind::SkipList);
        self.superblock();
        let free = self.free_list();
        let meta = self.table(METAINDEX, Sort::Bytes);
        let tables = self.tables(&meta);
        for number in 1..=self.pages {
            let owned = self.owner[number as usize].is_some();
            self.expect(owned, Rule::NotOwned, number);
        }
        let layout = Layout {
            pages: self.pages,
            mounted: self.u16(SUPERBLOCK, superblock::MOUNTED),
            span_size: self.u16(SUPERBLOCK, superblock::SPAN_SIZE),
            count_kept: self.u32(SUPERBLOCK, superblock::KEPT_COUNT) != 0,
            meta,
            tables,
            free,
        };
        self.kept_count(&layout);
        layout
    }

    /// "A well-formed image has 0 or the true figure there" (document 02, T-06).
    fn kept_count(&mut self, layout: &Layout) {
        let kept = self.u32(SUPERBLOCK, superblock::KEPT_COUNT);
        let holds = kept == 0 || kept == layout.true_count();
        self.expect(holds, Rule::KeptCount, SUPERBLOCK);
    }

    /// The superblock's fields but for the first free-list page and the kept count.
    fn superblock(&mut self) {
        let bytes = page::bytes(self.image, SUPERBLOCK);
        let (major, minor) = (bytes[superblock::MAJOR], bytes[superblock::MINOR]);
        let high = u64::from(self.u32(SUPERBLOCK, superblock::FILE_LENGTH));
        let low = u64::from(self.u32(SUPERBLOCK, superblock::FILE_LENGTH + 4));
        let length = (high << 32) | low;
        let mounted = self.u16(SUPERBLOCK, superblock::MOUNTED);
        let span_size = self.u16(SUPERBLOCK, superblock::SPAN_SIZE);
        let page_size = self.u32(SUPERBLOCK, superblock::PAGE_SIZE);
        self.expect(major == 1, Rule::Major, SUPERBLOCK);
        self.expect(minor == 2, Rule::Minor, SUPERBLOCK);
        let is_length = length == self.image.len() as u64;
        self.expect(is_length, Rule::FileLength, SUPERBLOCK);
        self.expect(mounted <= 1, Rule::Mounted, SUPERBLOCK);
        let legal = legal_span_size(span_size);
        self.expect(legal, Rule::SuperblockSpanSize, SUPERBLOCK);
        self.expect(page_size as usize == PAGE, Rule::PageSize, SUPERBLOCK);
    }

    /// The chain of free-list blocks and the pages they list.
    fn free_list(&mut self) -> Vec<Block> {
        let first = self.u32(SUPERBLOCK, superblock::FIRST_BLOCK);
        if first != 0 && !self.in_range(first) {
            self.expect(false, Rule::FirstBlockRange, SUPERBLOCK);
            return Vec::new();
        }
        let blocks = self.follow(&BLOCKS, SUPERBLOCK, first);
        let read = |page: u32| Block {
            page,
            listed: self.listed(page),
        };
        blocks.into_iter().map(read).collect()
    }

    /// The pages that a block lists.
    fn listed(&mut self, block: u32) -> Vec<u32> {
        let count = self.u32(block, block::COUNT) as usize;
        self.expect(count <= MAX_NUMBERS, Rule::BlockCount, block);
        let places = 0..count.min(MAX_NUMBERS);
        let listed: Vec<u32> = places
            .map(|place| self.u32(block, page::listed_number(place)))
            .collect();
        for &number in &listed {
            self.own_named(number, Kind::Free, Rule::ListedRange, block);
        }
        listed
    }

    /// The tables that the metaindex names.
    fn tables(&mut self, meta: &Table) -> Vec<(Vec<u8>, Table)> {
        let mut tables = Vec::new();
        for span in &meta.spans {
            for entry in &span.entries {
                for rule in name_rules(&entry.key) {
                    self.expect(false, rule, span.page);
                }
                let value = <[u8; 4]>::try_from(entry.value.as_slice());
                self.expect(value.is_ok(), Rule::TableValue, span.page);
                let Ok(value) = value else { continue };
                let root = u32::from_be_bytes(value);
                if self.own_named(root, Kind::SkipList, Rule::TableRange, span.page) {
                    let name = entry.key.clone();
                    let table = self.table(root, Sort::of(&name));
                    tables.push((name, table));
                }
            }
        }
        tables
    }

    /// A table, or the metaindex, from its skip-list page; its keys sort so.
    fn table(&mut self, root: u32, sort: Sort) -> Table {
        let span_size = self.u16(root, skip_list::SPAN_SIZE);
        self.expect(legal_span_size(span_size), Rule::TableSpanSize, root);
        let mut spans = self.spans(root, span_size);
        self.keys(sort, &spans);
        let keys: u32 = spans
            .iter()
            .map(|one| u32::from(self.u16(one.page, span::SIZE)))
            .sum();
        let (head, towers) = self.towers(root, &mut spans);
        let counts = [
            (skip_list::SIZE, keys, Rule::KeyCount),
            (skip_list::SPANS, spans.len() as u32, Rule::SpanCount),
            (skip_list::LEVELS, towers, Rule::LevelCount),
        ];
        for (offset, number, rule) in counts {
            self.expect(self.u32(root, offset) == number, rule, root);
        }
        Table {
            root,
            span_size,
            head,
            spans,
        }
    }

    /// The spans of a table, with their entries and without their towers.
    fn spans(&mut self, root: u32, span_size: u16) -> Vec<Span> {
        let first = self.u32(root, skip_list::FIRST_SPAN);
        if !self.in_range(first) {
            self.expect(false, Rule::FirstSpanRange, root);
            return Vec::new();
        }
        let pages = self.follow(&SPANS, root, first);
        let mut previous = 0;
        let mut spans = Vec::new();
        for &number in &pages {
            let agrees = self.u32(number, span::PREVIOUS) == previous;
            self.expect(agrees, Rule::PreviousLink, number);
            spans.push(self.span(number, span_size, previous == 0));
            previous = number;
        }
        spans
    }

    /// One span: its fields, continuation pages and entries.
    fn span(&mut self, number: u32, span_size: u16, is_first: bool) -> Span {
        let max_keys = self.u16(number, span::MAX_KEYS);
        let size = self.u16(number, span::SIZE);
        self.expect(max_keys == span_size, Rule::MaxKeys, number);
        self.expect(size <= max_keys, Rule::SizeOverMaxKeys, number);
        self.expect(is_first || size != 0, Rule::EmptySpan, number);
        let first = self.u32(number, span::CONTINUATION);
        let continuations = self.follow(&CONTINUATIONS, number, first);
        let mut pages = vec![number];
        pages.extend(&continuations);
        Span {
            page: number,
            entries: self.entries(&pages, size),
            continuations,
            tower: None,
        }
    }

    /// The entries on a span's pages.
    fn entries(&mut self, pages: &[u32], size: u16) -> Vec<Entry> {
        let mut entries = Vec::new();
        let mut place = Place::START;
        for _ in 0..size {
            let Some((entry, after)) = entries::read(self.image, pages, place) else {
                self.expect(false, Rule::TooFewContinuations, pages[0]);
                return entries;
            };
            entries.push(entry);
            place = after;
        }
        let reaches_all = place.page + 1 == pages.len();
        self.expect(reaches_all, Rule::TooManyContinuations, pages[0]);
        entries
    }

    /// "Keys increase strictly through the whole table", in the table's own order. A key that the
    /// table may not hold has no place in the order.
    fn keys(&mut self, sort: Sort, spans: &[Span]) {
        let (allowed, rising) = key_rules(sort);
        let mut last: Option<&[u8]> = None;
        for span in spans {
            for entry in &span.entries {
                if !sort.allows(&entry.key) {
                    self.expect(false, allowed, span.page);
                    continue;
                }
                let rises = last.is_none_or(|last| sort.compare(last, &entry.key).is_lt());
                self.expect(rises, rising, span.page);
                last = Some(&entry.key);
            }
        }
    }

    /// The head of a table and the number of its towers, first tower counted; the other towers
    /// are put on their spans.
    fn towers(&mut self, root: u32, spans: &mut [Span]) -> (Tower, u32) {
        let number = self.u32(root, skip_list::FIRST_LEVEL);
        if !self.own_named(number, Kind::Tower, Rule::FirstLevelRange, root) {
            return (Tower::default(), 0);
        }
        let head = self.head(number, spans);
        let chain = match head.height {
            0 => Vec::new(),
            _ => {
                let first = self.u32(number, page::tower_entry(0));
                self.follow(&TOWERS, number, first)
            }
        };
        let place_of: BTreeMap<u32, usize> = places(spans);
        let mut placed = Vec::new();
        for &number in &chain {
            let (tower, place) = self.tower(number, &head, &place_of, spans);
            placed.push((place, tower));
        }
        placed.sort_by_key(|(place, _)| *place);
        let towers: Vec<Tower> = placed.into_iter().map(|(_, tower)| tower).collect();
        self.levels(&head, &towers);
        (head, 1 + towers.len() as u32)
    }

    /// "The first level page is the head, and its span is the first span. Max height 1 to 252,
    /// current at most max."
    fn head(&mut self, number: u32, spans: &[Span]) -> Tower {
        let head = self.read_tower(number);
        let first_span = spans.first().map_or(0, |span| span.page);
        let is_first = self.u32(number, tower::SPAN) == first_span;
        self.expect(is_first, Rule::HeadSpan, number);
        self.expect(legal_max_height(head.max), Rule::HeadMax, number);
        self.expect(head.height <= head.max, Rule::HeadCurrent, number);
        head
    }

    /// A tower other than the head, and the place of its span (after all others where it is not
    /// a span of the table): "Each has current from 1 to the head's current and a span of its own
    /// in the same table, not the first."
    fn tower(
        &mut self,
        number: u32,
        head: &Tower,
        place_of: &BTreeMap<u32, usize>,
        spans: &mut [Span],
    ) -> (Tower, usize) {
        let tower = self.read_tower(number);
        let height = tower.height;
        self.expect(legal_max_height(tower.max), Rule::TowerMax, number);
        self.expect(height <= tower.max, Rule::TowerCurrentOverMax, number);
        self.expect(height >= 1, Rule::TowerCurrentZero, number);
        self.expect(height <= head.height, Rule::TowerCurrentOverHead, number);
        let span = self.u32(number, tower::SPAN);
        self.expect(self.in_range(span), Rule::TowerSpanRange, number);
        let Some(&place) = place_of.get(&span) else {
            let foreign = self.in_range(span);
            self.expect(!foreign, Rule::TowerSpanForeign, number);
            return (tower, spans.len());
        };
        self.expect(place != 0, Rule::TowerSpanFirst, number);
        let own = spans[place].tower.is_none();
        self.expect(own, Rule::TowerSpanShared, number);
        spans[place].tower = Some(tower);
        (tower, place)
    }

    fn read_tower(&self, number: u32) -> Tower {
        Tower {
            page: number,
            max: self.u16(number, tower::MAX_HEIGHT),
            height: self.u16(number, tower::CURRENT),
        }
    }

    /// The chains of all levels below the head's current; `towers` are in span order.
    fn levels(&mut self, head: &Tower, towers: &[Tower]) {
        let height_of: BTreeMap<u32, usize> = towers
            .iter()
            .map(|tower| (tower.page, usize::from(tower.height)))
            .collect();
        for level in 0..usize::from(head.height).min(MAX_NUMBERS) {
            let above = |tower: &&Tower| usize::from(tower.height) > level;
            let expected: Vec<u32> = towers.iter().filter(above).map(|one| one.page).collect();
            self.level(head.page, level, &expected, &height_of);
        }
    }

    /// "At each level i below the head's current, the chain from the head along entry i visits
    /// exactly the other towers with current above i, in span order, and ends in 0."
    fn level(
        &mut self,
        head: u32,
        level: usize,
        expected: &[u32],
        height_of: &BTreeMap<u32, usize>,
    ) {
        let is_expected = |number: u32| height_of.get(&number).is_some_and(|&one| one > level);
        let mut visited = Vec::new();
        let mut holder = head;
        let mut number = self.u32(head, page::tower_entry(level));
        while visited.len() < expected.len() && is_expected(number) {
            visited.push(number);
            holder = number;
            number = self.u32(number, page::tower_entry(level));
        }
        let in_order = visited == expected;
        let same = in_order || sorted(&visited) == sorted(expected);
        self.expect(same, Rule::LevelVisits, holder);
        self.expect(in_order || !same, Rule::LevelOrder, head);
        let in_range = number <= self.pages;
        self.expect(in_range, Rule::TowerEntryRange, holder);
        let ends = number == 0 || !in_range || !same;
        self.expect(ends, Rule::LevelEnd, holder);
    }
}

/// The places of the spans by page number.
fn places(spans: &[Span]) -> BTreeMap<u32, usize> {
    let numbered = spans.iter().enumerate();
    numbered.map(|(place, span)| (span.page, place)).collect()
}

fn sorted(pages: &[u32]) -> Vec<u32> {
    let mut pages = pages.to_vec();
    pages.sort_unstable();
    pages
}

/// The rule for each key of a table that sorts so, and the rule for their order.
fn key_rules(sort: Sort) -> (Rule, Rule) {
    match sort {
        Sort::Bytes => (Rule::KeyEmpty, Rule::KeysRising),
        Sort::Numbers => (Rule::OffsetLength, Rule::OffsetsRising),
    }
}

/// "The table's span size, 2 to 128 (also for the superblock's)."
fn legal_span_size(span_size: u16) -> bool {
    (2..=128).contains(&span_size)
}

/// "Max height 1 to 252."
fn legal_max_height(max: u16) -> bool {
    (1..=MAX_NUMBERS).contains(&usize::from(max))
}

/// The rule that a page owned as this kind bears its mark.
fn mark_rule(kind: Kind) -> Rule {
    match kind {
        Kind::Superblock => Rule::SuperblockMark,
        Kind::SkipList => Rule::SkipListMark,
        Kind::Tower => Rule::TowerMark,
        Kind::Span => Rule::SpanMark,
        Kind::Continuation => Rule::ContinuationMark,
        Kind::Block => Rule::BlockMark,
        Kind::Free => Rule::FreeMark,
    }
}
