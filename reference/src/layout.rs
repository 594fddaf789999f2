//! What a well-formed image says, as plain data.

use crate::entries::Entry;
use crate::page::{Kind, SUPERBLOCK};
use crate::sort::Sort;

/// An image: everything but its unused bytes.
#[derive(Clone, Debug, PartialEq, Eq)]
pub struct Layout {
    /// P.
    pub pages: u32,
    /// The superblock's mounted field, 0 or 1.
    pub mounted: u16,
    /// The superblock's span size, for created tables.
    pub span_size: u16,
    /// Whether the superblock keeps the free count.
    pub count_kept: bool,
    /// The metaindex.
    pub meta: Table,
    /// The tables by name, in the order of the metaindex.
    pub tables: Vec<(Vec<u8>, Table)>,
    /// The chain of free-list blocks.
    pub free: Vec<Block>,
}

/// A free-list block and the free pages it lists, in their order.
#[derive(Clone, Debug, PartialEq, Eq)]
pub struct Block {
    pub page: u32,
    pub listed: Vec<u32>,
}

/// A table, or the metaindex.
#[derive(Clone, Debug, PartialEq, Eq)]
pub struct Table {
    /// The skip-list page.
    pub root: u32,
    pub span_size: u16,
    /// The tower of the first span.
    pub head: Tower,
    /// The spans in the order of the chain.
    pub spans: Vec<Span>,
}

/// A span with its entries; `tower` is that of a span other than the first, if it has one.
#[derive(Clone, Debug, PartialEq, Eq)]
pub struct Span {
    pub page: u32,
    pub continuations: Vec<u32>,
    pub entries: Vec<Entry>,
    pub tower: Option<Tower>,
}

/// A tower. Its entries follow from its place among the towers of the table.
#[derive(Clone, Copy, Debug, Default, PartialEq, Eq)]
pub struct Tower {
    pub page: u32,
    /// Max height.
    pub max: u16,
    /// Current height.
    pub height: u16,
}

impl Layout {
    /// F, "listed pages plus free-list blocks".
    pub fn free_pages(&self) -> usize {
        self.free.iter().map(|block| 1 + block.listed.len()).sum()
    }

    /// The kept count that is true of these free pages, "F plus 1" (document 02, T-06).
    pub fn true_count(&self) -> u32 {
        self.free_pages() as u32 + 1
    }

    /// The kept count: "0 means not kept".
    pub fn kept_count(&self) -> u32 {
        match self.count_kept {
            true => self.true_count(),
            false => 0,
        }
    }

    /// The number of keys, the metaindex not counted.
    pub fn keys(&self) -> usize {
        self.tables.iter().map(|(_, table)| table.keys()).sum()
    }

    /// The place of a name among the tables.
    pub fn find(&self, name: &[u8]) -> Option<usize> {
        self.tables.iter().position(|(other, _)| other == name)
    }

    /// The metaindex and all tables.
    pub fn all_tables(&self) -> impl Iterator<Item = &Table> {
        self.sorted_tables().map(|(_, table)| table)
    }

    /// The metaindex and all tables, each with how its keys sort.
    pub fn sorted_tables(&self) -> impl Iterator<Item = (Sort, &Table)> {
        let tables = self.tables.iter();
        let named = tables.map(|(name, table)| (Sort::of(name), table));
        std::iter::once((Sort::Bytes, &self.meta)).chain(named)
    }

    /// Every page with the kind it is owned as.
    pub fn owners(&self) -> Vec<(u32, Kind)> {
        let mut owners = vec![(SUPERBLOCK, Kind::Superblock)];
        for block in &self.free {
            owners.push((block.page, Kind::Block));
            owners.extend(block.listed.iter().map(|&page| (page, Kind::Free)));
        }
        for table in self.all_tables() {
            owners.extend(table.owners());
        }
        owners
    }

    /// The metaindex (place 0) or a table (its place among the tables plus 1).
    pub fn table_mut(&mut self, place: usize) -> &mut Table {
        match place {
            0 => &mut self.meta,
            _ => &mut self.tables[place - 1].1,
        }
    }
}

impl Table {
    /// The true number of keys.
    pub fn keys(&self) -> usize {
        self.spans.iter().map(|span| span.entries.len()).sum()
    }

    /// The true number of towers, "first tower counted".
    pub fn levels(&self) -> usize {
        1 + self.towers().count()
    }

    /// The towers other than the head, in span order.
    pub fn towers(&self) -> impl DoubleEndedIterator<Item = &Tower> {
        self.spans.iter().filter_map(|span| span.tower.as_ref())
    }

    /// All entries, in the order of the keys.
    pub fn entries(&self) -> impl Iterator<Item = &Entry> {
        self.spans.iter().flat_map(|span| span.entries.iter())
    }

    /// The value of a key.
    pub fn value(&self, key: &[u8]) -> Option<&[u8]> {
        let entry = self.entries().find(|entry| entry.key == key);
        entry.map(|entry| entry.value.as_slice())
    }

    /// "Next gives the smallest key above the one asked."
    pub fn above(&self, sort: Sort, key: &[u8]) -> Option<&[u8]> {
        let is_above = |entry: &&Entry| sort.compare(&entry.key, key).is_gt();
        let entry = self.entries().find(is_above);
        entry.map(|entry| entry.key.as_slice())
    }

    /// "Target span of a key: the last non-empty span whose first key is not above it; if none,
    /// the first span."
    pub fn target(&self, sort: Sort, key: &[u8]) -> usize {
        let not_above = |span: &Span| {
            let first = span.entries.first();
            first.is_some_and(|entry| sort.compare(&entry.key, key).is_le())
        };
        self.spans.iter().rposition(not_above).unwrap_or(0)
    }

    /// The tower whose entry at this level comes to the tower of span `place`: the last one with
    /// current above the level on an earlier span, else the head.
    pub fn tower_before(&self, place: usize, level: usize) -> &Tower {
        let earlier = self.spans[..place].iter().rev();
        let mut towers = earlier.filter_map(|span| span.tower.as_ref());
        towers
            .find(|tower| usize::from(tower.height) > level)
            .unwrap_or(&self.head)
    }

    /// The page that the tower of span `place` names at this level: the next tower in span order
    /// with current above the level, else 0.
    pub fn tower_after(&self, place: usize, level: usize) -> u32 {
        let later = self.spans[place + 1..].iter();
        let mut towers = later.filter_map(|span| span.tower.as_ref());
        towers
            .find(|tower| usize::from(tower.height) > level)
            .map_or(0, |tower| tower.page)
    }

    /// The pages of the table with the kinds they are owned as.
    pub fn owners(&self) -> Vec<(u32, Kind)> {
        let mut owners = vec![(self.root, Kind::SkipList), (self.head.page, Kind::Tower)];
        for span in &self.spans {
            let continuations = span.continuations.iter();
            owners.push((span.page, Kind::Span));
            owners.extend(continuations.map(|&page| (page, Kind::Continuation)));
            owners.extend(span.tower.map(|tower| (tower.page, Kind::Tower)));
        }
        owners
    }
}

impl Span {
    /// The span's page, then its continuation pages.
    pub fn pages(&self) -> Vec<u32> {
        let mut pages = vec![self.page];
        pages.extend(&self.continuations);
        pages
    }
}
