//! What becomes of the target span of a put or create, and writing it.

use super::entry::Entries;
use super::free::{count_chain, Draw};
use super::order::Keys;
use super::page::{link, page, page_mut, set_mark, set_u16, set_u32, u16_at, u32_at, Page};
use super::search::{self, Path, Table};
use super::stage::{self, Bytes, Writer};
use crate::calls::Refusal;
use crate::page::{skip_list, span, tower, tower_entry, Kind};

/// What becomes of the target span.
pub struct Plan<'a> {
    table: Table,
    path: Path,
    /// Whether the key is there already, so that only its value changes.
    replaces: bool,
    /// The place of the key among the entries.
    at: usize,
    key: &'a [u8],
    /// How many entries there are after the put.
    size: usize,
    /// How many of them stay in the target.
    stay: usize,
    /// The continuation pages of the target after the put.
    continuations: usize,
    split: Option<Split>,
}

/// The new span of a split.
#[derive(Clone, Copy)]
struct Split {
    continuations: usize,
    /// The height of its tower, or 0 for none.
    height: usize,
}

/// The pages drawn for a split: the new span and its tower, or 0.
#[derive(Clone, Copy)]
pub struct New {
    span: u32,
    tower: u32,
}

impl<'a> Plan<'a> {
    /// The plan to put a value of this length under a key.
    pub fn new<K: Keys>(pages: &[Page], table: Table, key: &'a [u8], value: usize) -> Plan<'a> {
        let path = table.target::<K>(pages, key);
        let spot = search::spot::<K>(pages, path.span, key);
        let replaces = spot.entry.is_some();
        let size = size_of(pages, path.span) + usize::from(!replaces);
        let splits = size > usize::from(table.span_size);
        let mut plan = Plan {
            table,
            path,
            replaces,
            at: spot.below,
            key,
            size,
            stay: if splits { size.div_ceil(2) } else { size },
            continuations: 0,
            split: None,
        };
        plan.measure(pages, value);
        plan
    }

    /// Whether the key is there already.
    pub fn replaces(&self) -> bool {
        self.replaces
    }

    /// Finds how many continuation pages the target and, on a split, the new span have.
    fn measure(&mut self, pages: &[Page], value: usize) {
        let mut ends = [stage::START; 2];
        let mut place = 0;
        self.each_entry(pages, &[], |key, stored| {
            let value = match stored {
                Bytes::Stored(run) => run.length,
                Bytes::Lent(_) => value,
            };
            let end = &mut ends[usize::from(place >= self.stay)];
            *end = stage::after_entry(*end, key.length() + value);
            place += 1;
        });
        self.continuations = stage::reach(ends[0]) - 1;
        self.split = (self.stay < self.size).then(|| Split {
            continuations: stage::reach(ends[1]) - 1,
            height: self.new_height(pages),
        });
    }

    /// Calls `each` with the key and value of every entry after the put, in order; `value` is that
    /// of the key put.
    fn each_entry<'b>(
        &self,
        pages: &[Page],
        value: &'b [u8],
        mut each: impl FnMut(Bytes<'a>, Bytes<'b>),
    ) {
        let mut old = Entries::of(pages, self.path.span);
        for entry in old.by_ref().take(self.at) {
            each(Bytes::Stored(entry.key), Bytes::Stored(entry.value));
        }
        each(Bytes::Lent(self.key), Bytes::Lent(value));
        if self.replaces {
            old.next();
        }
        for entry in old {
            each(Bytes::Stored(entry.key), Bytes::Stored(entry.value));
        }
    }

    /// The trailing zero bits of the number of spans after the split, at most the head's max
    /// height.
    fn new_height(&self, pages: &[Page]) -> usize {
        let spans = u32_at(page(pages, self.table.root), skip_list::SPANS) + 1;
        let max = head_max(pages, &self.table);
        spans.trailing_zeros().min(u32::from(max)) as usize
    }

    /// Begins to draw the pages wanted, and `more` than these, if there is room for them.
    pub fn draw(&self, pages: &[Page], free: u64, more: usize) -> Result<Draw, Refusal> {
        let split = self.split.map_or(0, |split| {
            1 + split.continuations + usize::from(split.height > 0)
        });
        let wanted = self.continuations + split + more;
        let first = link(page(pages, self.path.span));
        let room = count_chain(pages, first) + free;
        let left = room.checked_sub(wanted as u64).ok_or(Refusal::NoRoom)?;
        Ok(Draw::from(first, left))
    }

    /// Draws the pages of the target and the new span, and links them in the staged pages.
    pub fn link(&self, pages: &mut [Page], staged: &mut [Page], draw: &mut Draw) -> New {
        let (lower, upper) = staged.split_at_mut(self.continuations + 1);
        draw.chain(pages, &mut lower[..self.continuations]);
        let Some(split) = self.split else {
            return New { span: 0, tower: 0 };
        };
        let span = draw.one(pages);
        draw.chain(pages, &mut upper[..split.continuations]);
        let tower = match split.height {
            0 => 0,
            _ => draw.one(pages),
        };
        New { span, tower }
    }

    /// Stages the entries of the target and the new span.
    pub fn stage(&self, pages: &[Page], staged: &mut [Page], value: &[u8]) {
        let mut writer = Writer::new(staged);
        let mut place = 0;
        self.each_entry(pages, value, |key, value| {
            if place == self.stay {
                writer.begin(self.continuations + 1);
            }
            writer.entry(pages, key, value);
            place += 1;
        });
    }

    /// Writes the staged spans to the image, the links and the tower of the new one, and the
    /// counts.
    pub fn write(&self, pages: &mut [Page], staged: &mut [Page], new: New) {
        let (target, max_keys) = (self.path.span, self.table.span_size);
        let (previous, next) = neighbours(pages, target);
        let after = if new.span == 0 { next } else { new.span };
        let (lower, upper) = staged.split_at_mut(self.continuations + 1);
        write_span(&mut lower[0], previous, after, max_keys, self.stay);
        stage::copy_chain(pages, lower, target);
        if let Some(split) = self.split {
            let upper = &mut upper[..split.continuations + 1];
            let size = self.size - self.stay;
            write_span(&mut upper[0], target, next, max_keys, size);
            stage::copy_chain(pages, upper, new.span);
            if next != 0 {
                set_u32(page_mut(pages, next), span::PREVIOUS, new.span);
            }
            if new.tower != 0 {
                self.write_tower(pages, split.height, new);
            }
        }
        self.write_counts(pages, new);
    }

    /// Writes the tower of the new span and links it into its levels. Above the head's current
    /// the path has the head, and the tower is the last one.
    fn write_tower(&self, pages: &mut [Page], height: usize, new: New) {
        let (head, current) = (self.table.head, self.table.height);
        let max = head_max(pages, &self.table);
        page_mut(pages, new.tower).fill(0);
        write_tower(pages, new.tower, max, height as u16, new.span);
        for level in 0..height {
            let offset = tower_entry(level);
            let before = page_mut(pages, self.path.towers[level]);
            let after = u32_at(before, offset);
            set_u32(before, offset, new.tower);
            if level < current {
                set_u32(page_mut(pages, new.tower), offset, after);
            }
        }
        let current = current.max(height) as u16;
        set_u16(page_mut(pages, head), tower::CURRENT, current);
    }

    fn write_counts(&self, pages: &mut [Page], new: New) {
        let keys = i32::from(!self.replaces);
        let spans = i32::from(new.span != 0);
        let towers = i32::from(new.tower != 0);
        change_counts(pages, self.table.root, [keys, spans, towers]);
    }
}

/// How many entries a span has.
pub fn size_of(pages: &[Page], number: u32) -> usize {
    usize::from(u16_at(page(pages, number), span::SIZE))
}

/// The spans before and after a span, each 0 for none.
pub fn neighbours(pages: &[Page], number: u32) -> (u32, u32) {
    let page = page(pages, number);
    (u32_at(page, span::PREVIOUS), u32_at(page, span::NEXT))
}

fn head_max(pages: &[Page], table: &Table) -> u16 {
    u16_at(page(pages, table.head), tower::MAX_HEIGHT)
}

/// Adds to the three counts of a skip-list page: keys, spans and towers.
pub fn change_counts(pages: &mut [Page], root: u32, more: [i32; 3]) {
    let list = page_mut(pages, root);
    let offsets = [skip_list::SIZE, skip_list::SPANS, skip_list::LEVELS];
    for (offset, more) in offsets.into_iter().zip(more) {
        let count = u32_at(list, offset).wrapping_add_signed(more);
        set_u32(list, offset, count);
    }
}

/// Writes the fields of a span on its staged page but for its continuation page.
pub fn write_span(page: &mut Page, previous: u32, next: u32, max_keys: u16, size: usize) {
    set_mark(page, Kind::Span);
    set_u32(page, span::PREVIOUS, previous);
    set_u32(page, span::NEXT, next);
    set_u16(page, span::MAX_KEYS, max_keys);
    set_u16(page, span::SIZE, size as u16);
}

/// Writes the fields of a tower on a page that is zero.
pub fn write_tower(pages: &mut [Page], number: u32, max: u16, height: u16, span: u32) {
    let page = page_mut(pages, number);
    set_mark(page, Kind::Tower);
    set_u16(page, tower::MAX_HEIGHT, max);
    set_u16(page, tower::CURRENT, height);
    set_u32(page, tower::SPAN, span);
}
