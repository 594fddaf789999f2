//! Finding a table, a key's target span, and a key, on an accepted image.

use super::entry::{first_key, Entries, Entry, Run};
use super::order::{Keys, Order};
use super::page::{page, u16_at, u32_at, Page};
use crate::page::{skip_list, span, tower, tower_entry, MAX_NUMBERS, METAINDEX};
use std::cmp::Ordering;

/// What the skip-list page of a table and its head say.
#[derive(Clone, Copy, Debug)]
pub struct Table {
    pub root: u32,
    pub first_span: u32,
    pub span_size: u16,
    pub head: u32,
    /// The head's current height.
    pub height: usize,
}

/// The tower passed at each level on the way to a span, and that span.
#[derive(Clone, Copy, Debug)]
pub struct Path {
    pub towers: [u32; MAX_NUMBERS],
    pub span: u32,
}

/// Where a key is, or would be, in a span: the entries below it, and its own if it is there.
#[derive(Clone, Copy, Debug)]
pub struct Spot {
    pub below: usize,
    pub entry: Option<Entry>,
}

impl Table {
    /// The table with this skip-list page.
    pub fn at(pages: &[Page], root: u32) -> Table {
        let list = page(pages, root);
        let head = u32_at(list, skip_list::FIRST_LEVEL);
        Table {
            root,
            first_span: u32_at(list, skip_list::FIRST_SPAN),
            span_size: u16_at(list, skip_list::SPAN_SIZE),
            head,
            height: usize::from(u16_at(page(pages, head), tower::CURRENT)),
        }
    }

    /// The metaindex.
    pub fn metaindex(pages: &[Page]) -> Table {
        Table::at(pages, METAINDEX)
    }

    /// The table of this name.
    pub fn named<O: Order>(pages: &[Page], name: &[u8]) -> Option<Table> {
        let value = Table::metaindex(pages).entry::<O>(pages, name)?.value;
        let mut root = [0; 4];
        value.copy_to(pages, &mut root);
        Some(Table::at(pages, u32::from_be_bytes(root)))
    }

    /// The entry of a key.
    pub fn entry<K: Keys>(&self, pages: &[Page], key: &[u8]) -> Option<Entry> {
        let target = self.target::<K>(pages, key).span;
        spot::<K>(pages, target, key).entry
    }

    /// The smallest key above the one asked.
    pub fn above<K: Keys>(&self, pages: &[Page], key: &[u8]) -> Option<Run> {
        let target = self.target::<K>(pages, key).span;
        let mut keys = Entries::of(pages, target).map(|entry| entry.key);
        let above = keys.find(|one| K::compare(pages, *one, key).is_gt());
        above.or_else(|| {
            let next = u32_at(page(pages, target), span::NEXT);
            (next != 0).then(|| first_key(pages, next))
        })
    }

    /// The way to the target span of a key.
    pub fn target<K: Keys>(&self, pages: &[Page], key: &[u8]) -> Path {
        self.descend(pages, |first| K::compare(pages, first, key).is_le())
    }

    /// The way to the span before the one that begins with this key.
    pub fn before<K: Keys>(&self, pages: &[Page], key: &[u8]) -> Path {
        self.descend(pages, |first| K::compare(pages, first, key).is_lt())
    }

    /// The way to the last span whose first key passes, or the first span. The key that stopped a
    /// level is not looked at again on the next, so each tower is looked at once.
    fn descend(&self, pages: &[Page], passes: impl Fn(Run) -> bool) -> Path {
        let mut towers = [self.head; MAX_NUMBERS];
        let (mut here, mut stop) = (self.head, 0);
        for level in (0..self.height).rev() {
            loop {
                let next = u32_at(page(pages, here), tower_entry(level));
                if next == 0 || next == stop {
                    break;
                }
                if !passes(first_key(pages, span_of(pages, next))) {
                    stop = next;
                    break;
                }
                here = next;
            }
            towers[level] = here;
        }
        let mut span = span_of(pages, here);
        loop {
            let next = u32_at(page(pages, span), span::NEXT);
            if next == 0 || !passes(first_key(pages, next)) {
                return Path { towers, span };
            }
            span = next;
        }
    }
}

/// The span of a tower.
pub fn span_of(pages: &[Page], tower: u32) -> u32 {
    u32_at(page(pages, tower), tower::SPAN)
}

/// Where a key is, or would be, in a span.
pub fn spot<K: Keys>(pages: &[Page], span: u32, key: &[u8]) -> Spot {
    let mut below = 0;
    for entry in Entries::of(pages, span) {
        match K::compare(pages, entry.key, key) {
            Ordering::Less => below += 1,
            Ordering::Equal => {
                let entry = Some(entry);
                return Spot { below, entry };
            }
            Ordering::Greater => break,
        }
    }
    Spot { below, entry: None }
}
