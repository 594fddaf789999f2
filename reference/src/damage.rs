//! Breaks one rule at a time.
//!
//! For each rule there is a damage that makes an image break it. Where it can be, no other rule is
//! broken with it; where it cannot, the rule is among those broken.

use crate::check;
use crate::encode;
use crate::entries::{self, MAX_LENGTH};
use crate::free;
use crate::generate::Sample;
use crate::layout::{Block, Layout, Table, Tower};
use crate::page::{
    self, block, continuation, skip_list, span, superblock, tower, Kind, MAX_NUMBERS, MAX_PAGES,
    METAINDEX, PAGE, SUPERBLOCK,
};
use crate::random::Random;
use crate::rule::Rule;
use crate::sort::Sort;

/// An image in which the rule is broken, where that can be made of this one.
pub fn damage(random: &mut Random, sample: &Sample, rule: Rule) -> Option<Vec<u8>> {
    let mut work = Work {
        random,
        image: sample.image.clone(),
        layout: sample.layout.clone(),
    };
    work.damage(rule)?;
    if rule != Rule::KeptCount {
        work.count_anew();
    }
    Some(work.image)
}

/// A well-formed image with one to three of its bytes set anew, mostly bytes that are used. The
/// image may still be well-formed.
pub fn set_bytes_anew(random: &mut Random, sample: &Sample) -> Vec<u8> {
    let mut image = sample.image.clone();
    for _ in 0..random.within(1..=3) {
        let number = random.within(1..=sample.layout.pages as usize) as u32;
        let offset = match random.below(4) {
            0 => random.below(PAGE),
            _ => random.below(40),
        };
        let near = random.below(sample.layout.pages as usize + 2) as u8;
        let byte = *random.pick(&[0, 1, 2, 0x7f, 0x80, 0xff, near, near]);
        page::write(&mut image, number, offset, &[byte]);
    }
    image
}

/// The image being damaged, with the layout it had.
struct Work<'a> {
    random: &'a mut Random,
    image: Vec<u8>,
    layout: Layout,
}

impl Work<'_> {
    /// Breaks the rule; `None` where this image does not allow it.
    fn damage(&mut self, rule: Rule) -> Option<()> {
        match rule {
            Rule::ImageLength => self.image_length(),
            Rule::SuperblockMark => self.mark(Kind::Superblock),
            Rule::Major => self.superblock_byte(superblock::MAJOR, &[0, 2, 255]),
            Rule::Minor => self.superblock_byte(superblock::MINOR, &[0, 1, 3, 255]),
            Rule::FileLength => self.file_length(),
            Rule::FirstBlockRange => self.first_block_range(),
            Rule::Mounted => self.superblock_u16(superblock::MOUNTED, &[2, 256, 0xffff]),
            Rule::SuperblockSpanSize => self.superblock_u16(superblock::SPAN_SIZE, BAD_SPAN_SIZES),
            Rule::PageSize => self.page_size(),
            Rule::SkipListMark => self.mark(Kind::SkipList),
            Rule::FirstSpanRange => self.root_range(skip_list::FIRST_SPAN),
            Rule::FirstLevelRange => self.root_range(skip_list::FIRST_LEVEL),
            Rule::TableSpanSize => self.table_span_size(),
            Rule::KeyCount => self.count(skip_list::SIZE),
            Rule::SpanCount => self.count(skip_list::SPANS),
            Rule::LevelCount => self.count(skip_list::LEVELS),
            Rule::SpanMark => self.mark(Kind::Span),
            Rule::NextSpanRange => self.next_span_range(),
            Rule::SpanEnd => self.span_end(),
            Rule::PreviousLink => self.previous_link(),
            Rule::MaxKeys => self.max_keys(),
            Rule::SizeOverMaxKeys => self.size_over_max_keys(),
            Rule::EmptySpan => self.empty_span(),
            Rule::ContinuationMark => self.mark(Kind::Continuation),
            Rule::ContinuationRange => self.continuation_range(),
            Rule::ContinuationEnd => self.continuation_end(),
            Rule::TooFewContinuations => self.too_few_continuations(),
            Rule::TooManyContinuations => self.too_many_continuations(),
            Rule::KeyEmpty => self.key_empty(),
            Rule::KeysRising => self.keys_rising(),
            Rule::OffsetLength => self.offset_length(),
            Rule::OffsetsRising => self.offsets_rising(),
            Rule::NameLength => self.name_length(),
            Rule::NameByte => self.name_byte(),
            Rule::TableValue => self.table_value(),
            Rule::TableRange => self.table_range(),
            Rule::TowerMark => self.mark(Kind::Tower),
            Rule::HeadSpan => self.head_span(),
            Rule::HeadMax => self.head_max(),
            Rule::HeadCurrent => self.head_current(),
            Rule::TowerEntryRange => self.tower_entry_range(),
            Rule::TowerMax => self.tower_max(),
            Rule::TowerCurrentOverMax => self.tower_current_over_max(),
            Rule::TowerCurrentZero => self.tower_current_zero(),
            Rule::TowerCurrentOverHead => self.tower_current_over_head(),
            Rule::TowerSpanRange => self.tower_span_range(),
            Rule::TowerSpanForeign => self.tower_span_foreign(),
            Rule::TowerSpanFirst => self.tower_span_first(),
            Rule::TowerSpanShared => self.tower_span_shared(),
            Rule::LevelVisits => self.level_visits(),
            Rule::LevelOrder => self.level_order(),
            Rule::LevelEnd => self.level_end(),
            Rule::BlockMark => self.mark(Kind::Block),
            Rule::NextBlockRange => self.next_block_range(),
            Rule::BlockEnd => self.block_end(),
            Rule::BlockCount => self.block_count(),
            Rule::ListedRange => self.listed_range(),
            Rule::FreeMark => self.mark(Kind::Free),
            Rule::KeptCount => self.kept_count(),
            Rule::OwnedTwice => self.owned_twice(),
            Rule::NotOwned => self.not_owned(),
        }
    }
}

fn is_full(block: &Block) -> bool {
    block.listed.len() == MAX_NUMBERS
}

const BAD_SPAN_SIZES: &[u16] = &[0, 1, 129, 256, 0xffff];

/// Helpers: what to choose from and how to write it.
impl Work<'_> {
    fn set_u16(&mut self, number: u32, offset: usize, value: u16) -> Option<()> {
        page::write_u16(&mut self.image, number, offset, value);
        Some(())
    }

    fn set_u32(&mut self, number: u32, offset: usize, value: u32) -> Option<()> {
        page::write_u32(&mut self.image, number, offset, value);
        Some(())
    }

    /// Writes the changed layout over the image.
    fn write_layout(&mut self) -> Option<()> {
        encode::layout(&mut self.image, &self.layout);
        Some(())
    }

    /// One of the items, if there is any.
    fn choose<T: Clone>(&mut self, items: &[T]) -> Option<T> {
        (!items.is_empty()).then(|| self.random.pick(items).clone())
    }

    /// A number above P.
    fn above_all(&mut self) -> u32 {
        let next = self.layout.pages + 1;
        *self
            .random
            .pick(&[next, next, 0xffff_ffff, 0x8000_0001, next + 0x100])
    }

    /// Where a count is kept, keeps that of the free list as the damage left it.
    fn count_anew(&mut self) {
        if let Some((layout, _)) = check::walk(&self.image) {
            let kept = layout.kept_count();
            page::write_u32(&mut self.image, SUPERBLOCK, superblock::KEPT_COUNT, kept);
        }
    }

    /// A number above P, or 0.
    fn no_page(&mut self) -> u32 {
        let above = self.above_all();
        *self.random.pick(&[0, above, above])
    }

    /// A table or the metaindex.
    fn table(&mut self) -> Table {
        let tables: Vec<&Table> = self.layout.all_tables().collect();
        (*self.random.pick(&tables)).clone()
    }

    /// The place (for `table_mut`) of a table for which the condition holds.
    fn place_where(&mut self, holds: impl Fn(&Table) -> bool) -> Option<usize> {
        self.place_sorted(|_, table| holds(table))
    }

    /// The same, with a condition also on how the keys of the table sort.
    fn place_sorted(&mut self, holds: impl Fn(Sort, &Table) -> bool) -> Option<usize> {
        let numbered = self.layout.sorted_tables().enumerate();
        let places: Vec<usize> = numbered
            .filter(|(_, (sort, table))| holds(*sort, table))
            .map(|(place, _)| place)
            .collect();
        self.choose(&places)
    }

    /// The place of an offset table with at least so many keys.
    fn offset_table(&mut self, keys: usize) -> Option<usize> {
        self.place_sorted(|sort, table| sort == Sort::Numbers && table.keys() >= keys)
    }

    /// A table for which the condition holds.
    fn table_where(&mut self, holds: impl Fn(&Table) -> bool) -> Option<Table> {
        let place = self.place_where(holds)?;
        Some(self.layout.table_mut(place).clone())
    }

    /// A tower other than a head, with its table.
    fn tower_where(&mut self, holds: impl Fn(&Table, &Tower) -> bool) -> Option<(Table, Tower)> {
        let table = self.table_where(|table| table.towers().any(|tower| holds(table, tower)))?;
        let towers: Vec<Tower> = table
            .towers()
            .filter(|tower| holds(&table, tower))
            .copied()
            .collect();
        let tower = self.choose(&towers)?;
        Some((table, tower))
    }

    /// The towers of a table with current above the level, in span order.
    fn chain(table: &Table, level: usize) -> Vec<Tower> {
        let above = |tower: &&Tower| usize::from(tower.height) > level;
        table.towers().filter(above).copied().collect()
    }

    /// A table and a level, at least `lowest`, whose chain has at least `count` towers.
    fn level_where(&mut self, lowest: usize, count: usize) -> Option<(Table, usize)> {
        let enough = |table: &Table, level: usize| {
            level < usize::from(table.head.height) && Self::chain(table, level).len() >= count
        };
        let table = self.table_where(|table| enough(table, lowest))?;
        let levels: Vec<usize> = (lowest..MAX_NUMBERS)
            .take_while(|&level| enough(&table, level))
            .collect();
        let level = self.choose(&levels)?;
        Some((table, level))
    }

    /// Brings a span's continuation pages to what its entries reach, by way of the free list.
    fn refit(&mut self, table: usize, place: usize) -> Option<()> {
        let entries = &self.layout.table_mut(table).spans[place].entries;
        let reached = entries::continuations(entries);
        while self.layout.table_mut(table).spans[place]
            .continuations
            .len()
            > reached
        {
            let pages = &mut self.layout.table_mut(table).spans[place].continuations;
            let page = pages.pop()?;
            let listed = Vec::new();
            self.layout.free.push(Block { page, listed });
        }
        while self.layout.table_mut(table).spans[place]
            .continuations
            .len()
            < reached
        {
            let last = self.layout.free.last_mut()?;
            let page = match last.listed.pop() {
                Some(listed) => listed,
                None => self.layout.free.pop()?.page,
            };
            let pages = &mut self.layout.table_mut(table).spans[place].continuations;
            pages.push(page);
        }
        Some(())
    }
}

/// The length, the superblock and the marks.
impl Work<'_> {
    fn image_length(&mut self) -> Option<()> {
        let length = self.image.len();
        let wrong = match self.random.below(6) {
            0 => length - self.random.within(1..=PAGE - 1),
            1 | 2 => length + self.random.within(1..=PAGE - 1),
            3 => 3 * PAGE,
            4 => 0,
            _ if self.random.percent(10) => (MAX_PAGES + 1) * PAGE,
            _ => self.random.below(4 * PAGE),
        };
        self.image.resize(wrong, 0);
        Some(())
    }

    /// Changes one bit of a page's mark.
    fn mark(&mut self, kind: Kind) -> Option<()> {
        let owners = self.layout.owners().into_iter();
        let pages: Vec<u32> = owners
            .filter(|(_, other)| *other == kind)
            .map(|(page, _)| page)
            .collect();
        let number = self.choose(&pages)?;
        let at = self.random.below(kind.mark().len());
        let bit = self.random.below(8);
        page::bytes_mut(&mut self.image, number)[at] ^= 1 << bit;
        Some(())
    }

    fn superblock_byte(&mut self, offset: usize, bad: &[u8]) -> Option<()> {
        let byte = self.choose(bad)?;
        page::write(&mut self.image, SUPERBLOCK, offset, &[byte]);
        Some(())
    }

    fn superblock_u16(&mut self, offset: usize, bad: &[u16]) -> Option<()> {
        let number = self.choose(bad)?;
        self.set_u16(SUPERBLOCK, offset, number)
    }

    fn file_length(&mut self) -> Option<()> {
        let length = self.image.len() as u64;
        let high = length | 1 << self.random.within(32..=63);
        let bad = [
            length - 1,
            length + 1,
            length - 1024,
            length + 1024,
            0,
            high,
        ];
        let number = self.choose(&bad)?;
        let at = superblock::FILE_LENGTH;
        page::write(&mut self.image, SUPERBLOCK, at, &number.to_be_bytes());
        Some(())
    }

    fn page_size(&mut self) -> Option<()> {
        let number = self.choose(&[0, 512, 1023, 1025, 2048, 0x0400_0000, 0x0001_0400])?;
        self.set_u32(SUPERBLOCK, superblock::PAGE_SIZE, number)
    }

    fn first_block_range(&mut self) -> Option<()> {
        let number = self.above_all();
        self.set_u32(SUPERBLOCK, superblock::FIRST_BLOCK, number)
    }
}

/// Skip-list pages, spans and continuation pages.
impl Work<'_> {
    fn root_range(&mut self, offset: usize) -> Option<()> {
        let (root, number) = (self.table().root, self.no_page());
        self.set_u32(root, offset, number)
    }

    /// Sets the table's span size and max keys on all its spans.
    fn table_span_size(&mut self) -> Option<()> {
        let place = self.place_where(|_| true)?;
        let size = self.choose(BAD_SPAN_SIZES)?;
        self.layout.table_mut(place).span_size = size;
        self.write_layout()
    }

    fn count(&mut self, offset: usize) -> Option<()> {
        let root = self.table().root;
        let count = page::read_u32(&self.image, root, offset);
        let wrong = [
            count + 1,
            count.wrapping_sub(1),
            count | 0x8000_0000,
            count + 0x1_0000,
        ];
        let number = self.choose(&wrong)?;
        self.set_u32(root, offset, number)
    }

    fn next_span_range(&mut self) -> Option<()> {
        let (table, number) = (self.table(), self.above_all());
        let any = self.choose(&table.spans)?.page;
        let last = table.spans.last()?.page;
        let at = self.choose(&[last, last, any])?;
        self.set_u32(at, span::NEXT, number)
    }

    /// A ring of spans.
    fn span_end(&mut self) -> Option<()> {
        let table = self.table();
        let back_to = self.choose(&table.spans)?.page;
        self.set_u32(table.spans.last()?.page, span::NEXT, back_to)
    }

    fn previous_link(&mut self) -> Option<()> {
        let table = self.table();
        let at = self.choose(&table.spans)?.page;
        let was = page::read_u32(&self.image, at, span::PREVIOUS);
        let any = self.random.within(1..=self.layout.pages as usize) as u32;
        let mut wrong = vec![0, at, any, self.above_all(), table.spans[0].page];
        wrong.retain(|number| *number != was);
        let number = self.choose(&wrong)?;
        self.set_u32(at, span::PREVIOUS, number)
    }

    fn max_keys(&mut self) -> Option<()> {
        let table = self.table();
        let at = self.choose(&table.spans)?.page;
        let mut wrong = vec![table.span_size + 1, 128, 129, 2, 0];
        wrong.retain(|number| *number != table.span_size);
        let number = self.choose(&wrong)?;
        self.set_u16(at, span::MAX_KEYS, number)
    }

    /// Lowers the table's span size, and max keys on all its spans, below the size of one.
    fn size_over_max_keys(&mut self) -> Option<()> {
        let largest = |table: &Table| table.spans.iter().map(|span| span.entries.len()).max();
        let place = self.place_where(|table| largest(table) > Some(2))?;
        let table = self.layout.table_mut(place);
        table.span_size = largest(table)? as u16 - 1;
        self.write_layout()
    }

    /// Empties a span that is not the first.
    fn empty_span(&mut self) -> Option<()> {
        let is_one = |table: &Table| table.root != METAINDEX && table.spans.len() > 1;
        let table = self.place_where(is_one)?;
        let count = self.layout.table_mut(table).spans.len();
        let place = self.random.within(1..=count - 1);
        self.layout.table_mut(table).spans[place].entries.clear();
        self.refit(table, place)?;
        self.write_layout()
    }

    /// The pages of a span, of one with continuation pages if that is wanted.
    fn span_pages(&mut self, continued: bool) -> Option<Vec<u32>> {
        let pages: Vec<Vec<u32>> = self
            .layout
            .all_tables()
            .flat_map(|table| table.spans.iter().map(|span| span.pages()))
            .filter(|pages| !continued || pages.len() > 1)
            .collect();
        self.choose(&pages)
    }

    fn continuation_range(&mut self) -> Option<()> {
        let pages = self.span_pages(false)?;
        let number = self.above_all();
        self.set_u32(*pages.last()?, continuation::NEXT, number)
    }

    /// A ring of continuation pages.
    fn continuation_end(&mut self) -> Option<()> {
        let pages = self.span_pages(true)?;
        let back_to = self.choose(&pages[1..])?;
        self.set_u32(*pages.last()?, continuation::NEXT, back_to)
    }

    /// Gives the last continuation page of a span back.
    fn too_few_continuations(&mut self) -> Option<()> {
        let mut pages = self.span_pages(true)?;
        let dropped = pages.pop()?;
        self.set_u32(*pages.last()?, continuation::NEXT, 0)?;
        free::give_back(&mut self.image, dropped);
        Some(())
    }

    /// Adds a free page to the continuation pages of a span.
    fn too_many_continuations(&mut self) -> Option<()> {
        if self.layout.free.is_empty() {
            return None;
        }
        let pages = self.span_pages(false)?;
        let added = free::take(&mut self.image);
        page::write_mark(&mut self.image, added, Kind::Continuation);
        self.set_u32(added, continuation::NEXT, 0)?;
        self.set_u32(*pages.last()?, continuation::NEXT, added)
    }
}

/// Entries and the metaindex.
impl Work<'_> {
    /// Makes the first key of a table empty, and its value longer by the key's length.
    fn key_empty(&mut self) -> Option<()> {
        let fits = |table: &Table| {
            let first = table.entries().next();
            first.is_some_and(|entry| entry.key.len() + entry.value.len() <= MAX_LENGTH)
        };
        let place = self.place_sorted(|sort, table| {
            sort == Sort::Bytes && table.root != METAINDEX && fits(table)
        })?;
        let spans = &mut self.layout.table_mut(place).spans;
        let entry = spans.iter_mut().flat_map(|span| &mut span.entries).next()?;
        let mut value = std::mem::take(&mut entry.key);
        value.append(&mut entry.value);
        entry.value = value;
        self.write_layout()
    }

    /// Makes a key equal to the one before, or one greater than the key after.
    fn keys_rising(&mut self) -> Option<()> {
        let place = self.place_sorted(|sort, table| sort == Sort::Bytes && table.keys() > 1)?;
        let highest = if place == 0 { 0x7e } else { 0xff };
        let equal = self.random.percent(50);
        let lengths: Vec<usize> = self
            .layout
            .table_mut(place)
            .entries()
            .map(|entry| entry.key.len())
            .collect();
        let pairs: Vec<usize> = (1..lengths.len())
            .filter(|&at| !equal || lengths[at - 1] == lengths[at])
            .collect();
        let at = self.choose(&pairs)?;
        let spans = self.layout.table_mut(place).spans.iter_mut();
        let mut entries = spans.flat_map(|span| &mut span.entries).skip(at - 1);
        let (lower, upper) = (entries.next()?, entries.next()?);
        if equal {
            upper.key.clone_from(&lower.key);
        } else {
            lower.key.fill(highest);
        }
        if lower.key < upper.key {
            return None;
        }
        self.write_layout()
    }

    /// Cuts or lengthens one key of an offset table, or all of them. A key that is lengthened stays in
    /// its place in the order of bytes.
    fn offset_length(&mut self) -> Option<()> {
        let place = self.offset_table(1)?;
        let length = *self.random.pick(&[0, 1, 2, 3, 5, 5, 6, 8, 1500]);
        let keys = self.layout.table_mut(place).keys();
        let one = self.random.below(keys);
        let all = self.random.percent(30);
        let spans = self.layout.table_mut(place).spans.iter_mut();
        let entries = spans.flat_map(|span| &mut span.entries).enumerate();
        for (_, entry) in entries.filter(|(at, _)| all || *at == one) {
            entry.key.resize(length, 0);
        }
        for span in 0..self.layout.table_mut(place).spans.len() {
            self.refit(place, span)?;
        }
        self.write_layout()
    }

    /// Brings the keys of an offset table into the order of their bytes, makes one equal to the one
    /// before, or exchanges two neighbours, also those at a border of two spans. All keys have four
    /// bytes, so that nothing else changes.
    fn offsets_rising(&mut self) -> Option<()> {
        let place = self.offset_table(2)?;
        let table = self.layout.table_mut(place);
        let old: Vec<Vec<u8>> = table.entries().map(|entry| entry.key.clone()).collect();
        let first = table.spans[0].entries.len();
        let mut keys = old.clone();
        let at = self.random.within(1..=keys.len() - 1);
        match self.random.below(5) {
            0 | 1 => keys.sort(),
            2 => keys[at] = keys[at - 1].clone(),
            3 if (1..keys.len()).contains(&first) => keys.swap(first - 1, first),
            _ => keys.swap(at - 1, at),
        }
        if keys == old {
            return None;
        }
        let spans = self.layout.table_mut(place).spans.iter_mut();
        for (entry, key) in spans.flat_map(|span| &mut span.entries).zip(keys) {
            entry.key = key;
        }
        self.write_layout()
    }

    /// The places of a name's span and entry in the metaindex.
    fn name(&mut self) -> Option<(usize, usize)> {
        let spans = self.layout.meta.spans.iter().enumerate();
        let places: Vec<(usize, usize)> = spans
            .flat_map(|(place, span)| (0..span.entries.len()).map(move |at| (place, at)))
            .collect();
        self.choose(&places)
    }

    fn name_length(&mut self) -> Option<()> {
        let (place, at) = self.name()?;
        let length = *self.random.pick(&[0, 256, 256, 300, 2000]);
        let name = &mut self.layout.meta.spans[place].entries[at].key;
        name.resize(length, 0x21);
        self.refit(0, place)?;
        self.write_layout()
    }

    fn name_byte(&mut self) -> Option<()> {
        let (place, at) = self.name()?;
        let byte = *self.random.pick(&[0x20, 0x7f, 0x00, 0x80, 0xff, 0x0a]);
        let name = &mut self.layout.meta.spans[place].entries[at].key;
        let changed = self.random.below(name.len());
        name[changed] = byte;
        self.write_layout()
    }

    fn table_value(&mut self) -> Option<()> {
        let (place, at) = self.name()?;
        let length = *self.random.pick(&[0, 3, 5, 8]);
        let value = &mut self.layout.meta.spans[place].entries[at].value;
        value.resize(length, 0);
        self.refit(0, place)?;
        self.write_layout()
    }

    fn table_range(&mut self) -> Option<()> {
        let number = self.no_page();
        self.set_table(number)
    }

    /// Sets the skip-list page of a name.
    fn set_table(&mut self, number: u32) -> Option<()> {
        let (place, at) = self.name()?;
        let value = &mut self.layout.meta.spans[place].entries[at].value;
        *value = number.to_be_bytes().to_vec();
        self.write_layout()
    }
}

/// Towers.
impl Work<'_> {
    fn head_span(&mut self) -> Option<()> {
        let table = self.table();
        let any = self.random.within(1..=self.layout.pages as usize) as u32;
        let last = table.spans.last()?.page;
        let mut wrong = vec![self.no_page(), any, last];
        wrong.retain(|number| *number != table.spans[0].page);
        let number = self.choose(&wrong)?;
        self.set_u32(table.head.page, tower::SPAN, number)
    }

    fn head_max(&mut self) -> Option<()> {
        let head = self.table().head;
        let number = *self.random.pick(&[0, 253, 256, 0xffff]);
        self.set_u16(head.page, tower::MAX_HEIGHT, number)
    }

    /// Lowers the head's max height below its current height, or raises its current height above
    /// its max height with no tower at the new levels.
    fn head_current(&mut self) -> Option<()> {
        let head = self.table().head;
        if head.height > 1 && self.random.percent(50) {
            return self.set_u16(head.page, tower::MAX_HEIGHT, head.height - 1);
        }
        let raised = head.max + 1;
        for level in usize::from(head.height)..usize::from(raised).min(MAX_NUMBERS) {
            self.set_u32(head.page, page::tower_entry(level), 0)?;
        }
        self.set_u16(head.page, tower::CURRENT, raised)
    }

    /// Sets the last entry of a level's chain above P.
    fn tower_entry_range(&mut self) -> Option<()> {
        let (table, level) = self.level_where(0, 0)?;
        let last = *Self::chain(&table, level).last().unwrap_or(&table.head);
        let number = self.above_all();
        self.set_u32(last.page, page::tower_entry(level), number)
    }

    fn tower_max(&mut self) -> Option<()> {
        let (_, tower) = self.tower_where(|_, _| true)?;
        let number = *self.random.pick(&[0, 253, 256, 0xffff]);
        self.set_u16(tower.page, tower::MAX_HEIGHT, number)
    }

    fn tower_current_over_max(&mut self) -> Option<()> {
        let (_, tower) = self.tower_where(|_, tower| tower.height > 1)?;
        let lowered = self.random.within(1..=usize::from(tower.height) - 1);
        self.set_u16(tower.page, tower::MAX_HEIGHT, lowered as u16)
    }

    fn tower_current_zero(&mut self) -> Option<()> {
        let is_last = |table: &Table, tower: &Tower| table.towers().last() == Some(tower);
        let any = self.random.percent(50);
        let (_, tower) = self.tower_where(|table, tower| any || is_last(table, tower))?;
        self.set_u16(tower.page, tower::CURRENT, 0)
    }

    /// Lowers the head's current height below that of a tower, or raises a tower's above it.
    fn tower_current_over_head(&mut self) -> Option<()> {
        let (table, tower) = self.tower_where(|_, _| true)?;
        if tower.height > 1 && self.random.percent(50) {
            return self.set_u16(table.head.page, tower::CURRENT, tower.height - 1);
        }
        let raised = table.head.height + 1;
        let max = tower.max.max(raised).min(MAX_NUMBERS as u16);
        self.set_u16(tower.page, tower::MAX_HEIGHT, max)?;
        self.set_u16(tower.page, tower::CURRENT, raised)
    }

    fn tower_span_range(&mut self) -> Option<()> {
        let (_, tower) = self.tower_where(|_, _| true)?;
        let number = self.no_page();
        self.set_u32(tower.page, tower::SPAN, number)
    }

    fn tower_span_foreign(&mut self) -> Option<()> {
        let (table, tower) = self.tower_where(|_, _| true)?;
        let own: Vec<u32> = table.spans.iter().map(|span| span.page).collect();
        let other: Vec<u32> = (1..=self.layout.pages)
            .filter(|number| !own.contains(number))
            .collect();
        let number = self.choose(&other)?;
        self.set_u32(tower.page, tower::SPAN, number)
    }

    fn tower_span_first(&mut self) -> Option<()> {
        let (table, tower) = self.tower_where(|_, _| true)?;
        self.set_u32(tower.page, tower::SPAN, table.spans[0].page)
    }

    fn tower_span_shared(&mut self) -> Option<()> {
        let (table, tower) = self.tower_where(|table, _| table.levels() > 2)?;
        let spans = table.spans.iter();
        let others: Vec<u32> = spans
            .filter(|span| span.tower.is_some_and(|other| other != tower))
            .map(|span| span.page)
            .collect();
        let number = self.choose(&others)?;
        self.set_u32(tower.page, tower::SPAN, number)
    }

    /// Leaves towers out of the chain of a level above 0, or leads it to a tower that is too low.
    fn level_visits(&mut self) -> Option<()> {
        let (table, level) = self.level_where(1, 1)?;
        let mut chain = vec![table.head];
        chain.extend(Self::chain(&table, level));
        let at = self.random.below(chain.len() - 1);
        let after_next = chain.get(at + 2).map_or(0, |tower| tower.page);
        let low = |tower: &&Tower| usize::from(tower.height) <= level;
        let mut others: Vec<u32> = table.towers().filter(low).map(|one| one.page).collect();
        others.extend([0, after_next]);
        let number = self.choose(&others)?;
        self.set_u32(chain[at].page, page::tower_entry(level), number)
    }

    /// Exchanges two towers that follow one another on a chain.
    fn level_order(&mut self) -> Option<()> {
        let (table, level) = self.level_where(0, 2)?;
        let mut chain = vec![table.head.page];
        chain.extend(Self::chain(&table, level).iter().map(|tower| tower.page));
        chain.push(0);
        let at = self.random.within(1..=chain.len() - 3);
        chain.swap(at, at + 1);
        for place in at - 1..=at + 1 {
            self.set_u32(chain[place], page::tower_entry(level), chain[place + 1])?;
        }
        Some(())
    }

    /// A ring on the chain of a level.
    fn level_end(&mut self) -> Option<()> {
        let (table, level) = self.level_where(0, 0)?;
        let mut chain = vec![table.head.page];
        chain.extend(Self::chain(&table, level).iter().map(|tower| tower.page));
        let back_to = self.choose(&chain)?;
        self.set_u32(*chain.last()?, page::tower_entry(level), back_to)
    }
}

/// The free list and the owners of pages.
impl Work<'_> {
    fn next_block_range(&mut self) -> Option<()> {
        let last = self.layout.free.last()?.page;
        let number = self.above_all();
        self.set_u32(last, block::NEXT, number)
    }

    /// A ring of free-list blocks.
    fn block_end(&mut self) -> Option<()> {
        let last = self.layout.free.last()?.page;
        let blocks = self.layout.free.clone();
        let back_to = self.choose(&blocks)?.page;
        self.set_u32(last, block::NEXT, back_to)
    }

    /// A count above 252, on a full block if there is one.
    fn block_count(&mut self) -> Option<()> {
        let mut blocks = self.layout.free.clone();
        if blocks.iter().any(is_full) {
            blocks.retain(is_full);
        }
        let at = self.choose(&blocks)?.page;
        let number = *self.random.pick(&[253, 256, 0x1_0000, 0xffff_ffff]);
        self.set_u32(at, block::COUNT, number)
    }

    /// A kept count that is false: one more or one less, with another high half, in the other byte order,
    /// the largest number, or any. With no page free one less is 0, which is not false.
    fn kept_count(&mut self) -> Option<()> {
        let right = self.layout.true_count();
        let high = (self.random.within(1..=0xffff) as u32) << 16;
        let any = self.random.next_u64() as u32;
        let mut wrong = vec![
            right + 1,
            right - 1,
            high | right,
            right.swap_bytes(),
            u32::MAX,
            any,
        ];
        wrong.retain(|count| *count != 0 && *count != right);
        let count = self.choose(&wrong)?;
        self.set_u32(SUPERBLOCK, superblock::KEPT_COUNT, count)
    }

    /// A block and the offset of a number it lists.
    fn listed(&mut self) -> Option<(u32, usize)> {
        let mut blocks = self.layout.free.clone();
        blocks.retain(|block| !block.listed.is_empty());
        let block = self.choose(&blocks)?;
        let place = self.random.below(block.listed.len());
        Some((block.page, page::listed_number(place)))
    }

    fn listed_range(&mut self) -> Option<()> {
        let (block, offset) = self.listed()?;
        let number = self.no_page();
        self.set_u32(block, offset, number)
    }

    fn owned_twice(&mut self) -> Option<()> {
        match self.random.below(8) {
            0 => self.shared_skip_list(),
            1 => self.set_table(METAINDEX),
            2 => self.listed_elsewhere(),
            3 => self.shared_span(),
            4 => self.shared_continuation(),
            5 => self.shared_head(),
            6 => self.chain_to_head(),
            _ => self.block_elsewhere(),
        }
    }

    /// Two names share one skip list.
    fn shared_skip_list(&mut self) -> Option<()> {
        let (place, at) = self.name()?;
        let own = self.layout.meta.spans[place].entries[at].value.clone();
        let others: Vec<Vec<u8>> = self
            .layout
            .meta
            .entries()
            .filter(|entry| entry.value != own)
            .map(|entry| entry.value.clone())
            .collect();
        let value = self.choose(&others)?;
        self.layout.meta.spans[place].entries[at].value = value;
        self.write_layout()
    }

    /// A page that has another owner.
    fn owned_page(&mut self, but: u32) -> u32 {
        let pages: Vec<u32> = (1..=self.layout.pages)
            .filter(|page| *page != but)
            .collect();
        *self.random.pick(&pages)
    }

    /// A block lists a page that has an owner.
    fn listed_elsewhere(&mut self) -> Option<()> {
        let (block, offset) = self.listed()?;
        let own = page::read_u32(&self.image, block, offset);
        let number = self.owned_page(own);
        self.set_u32(block, offset, number)
    }

    /// The spans of one table run on into those of another, or into any page.
    fn shared_span(&mut self) -> Option<()> {
        let table = self.table();
        let last = table.spans.last()?.page;
        let own = table.root;
        let others: Vec<u32> = self
            .layout
            .all_tables()
            .filter(|table| table.root != own)
            .map(|table| table.spans[0].page)
            .chain([SUPERBLOCK, METAINDEX])
            .collect();
        let number = self.choose(&others)?;
        self.set_u32(last, span::NEXT, number)
    }

    /// The continuation pages of a span run on into another page.
    fn shared_continuation(&mut self) -> Option<()> {
        let pages = self.span_pages(false)?;
        let own: Vec<u32> = pages[1..].to_vec();
        let number = self.owned_page(0);
        if own.contains(&number) {
            return None;
        }
        self.set_u32(*pages.last()?, continuation::NEXT, number)
    }

    /// Two tables share one head.
    fn shared_head(&mut self) -> Option<()> {
        let (one, other) = (self.table(), self.table());
        if one.root == other.root {
            return None;
        }
        self.set_u32(one.root, skip_list::FIRST_LEVEL, other.head.page)
    }

    /// The chain along entry 0 comes back to the head.
    fn chain_to_head(&mut self) -> Option<()> {
        let table = self.table_where(|table| table.head.height > 0)?;
        let last = table.towers().last().unwrap_or(&table.head);
        self.set_u32(last.page, page::tower_entry(0), table.head.page)
    }

    /// The chain of blocks, or the superblock, leads to a page that is no block.
    fn block_elsewhere(&mut self) -> Option<()> {
        let blocks: Vec<u32> = self.layout.free.iter().map(|block| block.page).collect();
        let number = self.owned_page(0);
        if blocks.contains(&number) {
            return None;
        }
        match blocks.last() {
            Some(&last) => self.set_u32(last, block::NEXT, number),
            None => self.set_u32(SUPERBLOCK, superblock::FIRST_BLOCK, number),
        }
    }

    /// A page more than the owned ones, or a free page or block that is left out.
    fn not_owned(&mut self) -> Option<()> {
        match self.random.below(3) {
            0 => self.one_more_page(),
            1 => self.one_less_listed(),
            _ => self.block_left_out(),
        }
    }

    /// A page of any bytes, or of zeros, at the end.
    fn one_more_page(&mut self) -> Option<()> {
        if self.layout.pages as usize == MAX_PAGES {
            return None;
        }
        let more = match self.random.below(2) {
            0 => vec![0; PAGE],
            _ => self.random.bytes(PAGE),
        };
        self.image.extend(more);
        let length = self.image.len() as u64;
        let at = superblock::FILE_LENGTH;
        page::write(&mut self.image, SUPERBLOCK, at, &length.to_be_bytes());
        Some(())
    }

    fn one_less_listed(&mut self) -> Option<()> {
        let (block, _) = self.listed()?;
        let count = page::read_u32(&self.image, block, block::COUNT);
        self.set_u32(block, block::COUNT, count - 1)
    }

    fn block_left_out(&mut self) -> Option<()> {
        self.layout.free.first()?;
        let second = self.layout.free.get(1).map_or(0, |block| block.page);
        self.set_u32(SUPERBLOCK, superblock::FIRST_BLOCK, second)
    }
}
