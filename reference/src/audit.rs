//! What has to hold of the image after any call, said without looking at how the call works.
//!
//! The audit compares the layouts and the bytes before and after. It finds the pages that
//! document 01 has written whole, and allows on every other page only the changes it names.

use crate::calls::Answer;
use crate::check::check;
use crate::encode;
use crate::generate::Sample;
use crate::layout::{Block, Layout, Span, Table};
use crate::page::{self, block, skip_list, span, superblock, tower, Kind, MAX_NUMBERS, PAGE};
use crate::request::{Call, Request};
use crate::sort::Sort;
use std::collections::{BTreeMap, BTreeSet};

/// Gives the layout after the call, or says what does not hold.
pub fn audit(
    before: &Sample,
    request: &Request,
    answer: &Answer,
    after: &[u8],
) -> Result<Layout, String> {
    no_room_rightly(&before.layout, &request.call, answer)?;
    if answer.number != 0 || !request.call.changes() {
        ensure(before.image == after, "the image stays")?;
        return Ok(before.layout.clone());
    }
    let layout = check(after).map_err(|broken| format!("not well-formed: {}", broken[0]))?;
    says_every_used_byte(after, &layout)?;
    owned_once(&layout)?;
    ensure(layout.count_kept, "the free count is kept")?;
    let change = Change::new(&before.layout, &layout, &request.call)
        .ok_or("does not hold: the changed table is there")?;
    change.spans_as_promised()?;
    change.pages_in_order()?;
    change.bytes_allowed(&before.image, after)?;
    Ok(layout)
}

fn ensure(holds: bool, what: &str) -> Result<(), String> {
    if holds {
        Ok(())
    } else {
        Err(format!("does not hold: {what}"))
    }
}

/// Writing the layout over the image changes nothing.
pub fn says_every_used_byte(image: &[u8], layout: &Layout) -> Result<(), String> {
    let mut again = image.to_vec();
    encode::layout(&mut again, layout);
    ensure(again == image, "the layout says every used byte")
}

/// "Each of the P pages is owned exactly once."
pub fn owned_once(layout: &Layout) -> Result<(), String> {
    let mut pages: Vec<u32> = layout.owners().iter().map(|(page, _)| *page).collect();
    pages.sort_unstable();
    let all: Vec<u32> = (1..=layout.pages).collect();
    ensure(pages == all, "every page is owned exactly once")
}

/// How many continuation pages entries with these key and value lengths reach. The bytes from
/// offset 8 on of the span's page and of each continuation page, 1016 a page, are counted as one
/// row; offset 20 of the span's page is its byte 12.
pub fn reach(lengths: &[(usize, usize)]) -> usize {
    const ROW: usize = 1016;
    let mut at = 12;
    for (key, value) in lengths {
        let left = (ROW - at % ROW) % ROW;
        if left < 4 {
            at += left;
        }
        at += 4 + key + value;
    }
    at.div_ceil(ROW) - 1
}

/// The table that a call changes, with how its keys sort: the metaindex on a create.
fn changed_table<'a>(layout: &'a Layout, call: &Call) -> Option<(Sort, &'a Table)> {
    match call {
        Call::Put { name, .. } | Call::Remove { name, .. } => {
            let place = layout.find(name)?;
            Some((Sort::of(name), &layout.tables[place].1))
        }
        Call::Create { .. } => Some((Sort::Bytes, &layout.meta)),
        Call::Check | Call::Get { .. } | Call::Next { .. } => None,
    }
}

/// The key that a call puts or removes; the name on a create.
fn changed_key(call: &Call) -> &[u8] {
    match call {
        Call::Put { key, .. } | Call::Remove { key, .. } => key,
        Call::Create { name } => name,
        Call::Check | Call::Get { .. } | Call::Next { .. } => &[],
    }
}

/// The span that a key belongs to: the one before the first later span that begins above it.
fn span_of<'a>(sort: Sort, table: &'a Table, key: &[u8]) -> &'a Span {
    let begins_above = |span: &&Span| sort.compare(&span.entries[0].key, key).is_gt();
    let above = table.spans[1..].iter().filter(begins_above).count();
    &table.spans[table.spans.len() - 1 - above]
}

/// The lengths of a span's entries, in order, after this one is put among them.
fn lengths_with(sort: Sort, span: &Span, key: &[u8], value: &[u8]) -> Vec<(usize, usize)> {
    let entries = span.entries.iter();
    let mut entries: Vec<(&[u8], usize)> = entries
        .filter(|entry| entry.key != key)
        .map(|entry| (entry.key.as_slice(), entry.value.len()))
        .collect();
    entries.push((key, value.len()));
    entries.sort_by(|(one, _), (other, _)| sort.compare(one, other));
    entries
        .into_iter()
        .map(|(key, value)| (key.len(), value))
        .collect()
}

/// The pages wanted by a put (`more` is 0) or a create (`more` is 3).
fn wanted(sort: Sort, table: &Table, key: &[u8], value: &[u8], more: usize) -> usize {
    let lengths = lengths_with(sort, span_of(sort, table, key), key, value);
    if lengths.len() <= usize::from(table.span_size) {
        return reach(&lengths) + more;
    }
    let (lower, upper) = lengths.split_at(lengths.len() - lengths.len() / 2);
    let has_tower = table.spans.len() % 2 == 1;
    reach(lower) + 1 + reach(upper) + usize::from(has_tower) + more
}

/// Of the calls not refused with 1 to 9, those get 10 for which "put, create: wanted pages exceed
/// the old continuation pages plus F"; "10 is no longer listed for remove" (document 02, T-07).
fn no_room_rightly(before: &Layout, call: &Call, answer: &Answer) -> Result<(), String> {
    if !matches!(answer.number, 0 | 10) {
        return Ok(());
    }
    let exceed = changed_table(before, call).is_some_and(|changed| match call {
        Call::Put { key, value, .. } => exceeds(before, changed, key, value, 0),
        Call::Create { name } => exceeds(before, changed, name, &[0; 4], 3),
        Call::Check | Call::Get { .. } | Call::Remove { .. } | Call::Next { .. } => false,
    });
    ensure(exceed == (answer.number == 10), "10 exactly in its case")
}

/// Whether the "wanted pages exceed the old continuation pages plus F".
fn exceeds(
    before: &Layout,
    (sort, table): (Sort, &Table),
    key: &[u8],
    value: &[u8],
    more: usize,
) -> bool {
    let old = span_of(sort, table, key).continuations.len();
    wanted(sort, table, key, value, more) > old + before.free_pages()
}

/// A done put, remove or create.
struct Change<'a> {
    call: &'a Call,
    before: &'a Layout,
    after: &'a Layout,
    /// The changed table before the call.
    old: &'a Table,
    /// The changed table after the call.
    new: &'a Table,
    /// The span, before the call, that the key belongs to.
    target: &'a Span,
}

impl<'a> Change<'a> {
    fn new(before: &'a Layout, after: &'a Layout, call: &'a Call) -> Option<Change<'a>> {
        let (sort, old) = changed_table(before, call)?;
        let (_, new) = changed_table(after, call)?;
        Some(Change {
            call,
            before,
            after,
            old,
            new,
            target: span_of(sort, old, changed_key(call)),
        })
    }

    /// Whether a span of the table after the call was none before.
    fn is_new(&self, span: &Span) -> bool {
        self.old.spans.iter().all(|other| other.page != span.page)
    }

    /// The table that a create made.
    fn created(&self) -> Option<&'a Table> {
        match self.call {
            Call::Create { name } => {
                let place = self.after.find(name)?;
                Some(&self.after.tables[place].1)
            }
            _ => None,
        }
    }

    /// What a split makes of sizes and towers; without one the head stays as it is.
    fn spans_as_promised(&self) -> Result<(), String> {
        let Some(place) = self.new.spans.iter().position(|span| self.is_new(span)) else {
            return ensure(self.new.head == self.old.head, "the head stays");
        };
        let (lower, upper) = (&self.new.spans[place - 1], &self.new.spans[place]);
        let (low, high) = (lower.entries.len(), upper.entries.len());
        ensure(low == high || low == high + 1, "half, rounded up, stays")?;
        let directly = lower.page == self.target.page;
        ensure(directly, "the new span is directly after")?;
        let head = &self.old.head;
        let mut height = 0;
        let mut rest = self.new.spans.len();
        while rest.is_multiple_of(2) && height < head.max {
            rest /= 2;
            height += 1;
        }
        let has = upper.tower.map_or(0, |tower| tower.height);
        ensure(has == height, "the new tower's height")?;
        let max = upper.tower.map_or(head.max, |tower| tower.max);
        ensure(max == head.max, "its max height is the head's")?;
        let raised = head.height.max(height);
        ensure(self.new.head.height == raised, "the head's current rises")
    }

    /// The pages that left the free list or came to it are those of document 01, in its order.
    fn pages_in_order(&self) -> Result<(), String> {
        let mut free = self.before.free.clone();
        let mut old = self.target.continuations.clone();
        let kept = self
            .new
            .spans
            .iter()
            .any(|span| span.page == self.target.page);
        if !kept {
            old.push(self.target.page);
            old.extend(self.target.tower.map(|tower| tower.page));
        }
        let used = if kept { self.pages_used() } else { Vec::new() };
        let removes = matches!(self.call, Call::Remove { .. });
        let takes = used.len() > old.len();
        ensure(!(removes && takes), "a remove takes no page")?;
        while old.len() < used.len() {
            old.push(take(&mut free).ok_or("does not hold: a page was free")?);
        }
        let left_over = old.split_off(used.len());
        ensure(old == used, "pages are drawn in the order wanted")?;
        for page in left_over {
            give_back(&mut free, page);
        }
        let same = free == self.after.free;
        ensure(same, "the free list is as taking and giving back leave it")
    }

    /// The pages wanted, in their order, as they are found after the call.
    fn pages_used(&self) -> Vec<u32> {
        let mut used = Vec::new();
        for span in &self.new.spans {
            if self.is_new(span) {
                used.extend(span.pages());
                used.extend(span.tower.map(|tower| tower.page));
            } else if span.page == self.target.page {
                used.extend(&span.continuations);
            }
        }
        if let Some(table) = self.created() {
            used.extend([table.root, table.spans[0].page, table.head.page]);
        }
        used
    }

    /// "A span whose entries change (a value replaced by an equal one counts as changed), a new
    /// span, their continuation pages, and new skip-list and tower pages."
    ///
    /// The target of a put always counts as changed, since the key joins it before the split:
    /// with span size 2 and a key above the two that are there, the same two stay.
    fn written_whole(&self) -> BTreeSet<u32> {
        let mut whole = BTreeSet::new();
        for span in &self.new.spans {
            let is_new = self.is_new(span);
            if is_new || span.page == self.target.page {
                whole.extend(span.pages());
            }
            if is_new {
                whole.extend(span.tower.map(|tower| tower.page));
            }
        }
        if let Some(table) = self.created() {
            whole.extend(table.owners().iter().map(|(page, _)| *page));
        }
        whole
    }

    /// Pages written whole are zero where unused; on other pages only what document 01 names
    /// changes.
    fn bytes_allowed(&self, before: &[u8], after: &[u8]) -> Result<(), String> {
        let mut clean = vec![0; after.len()];
        encode::layout(&mut clean, self.after);
        let whole = self.written_whole();
        let was: BTreeMap<u32, Kind> = self.before.owners().into_iter().collect();
        let own: BTreeSet<(u32, Kind)> = self.new.owners().into_iter().collect();
        for (number, kind) in self.after.owners() {
            let (old, new) = (page::bytes(before, number), page::bytes(after, number));
            if whole.contains(&number) {
                let is_clean = new == page::bytes(&clean, number);
                ensure(is_clean, &format!("page {number}, a {kind}, written whole"))?;
                continue;
            }
            let allowed = match kind {
                Kind::Superblock => vec![(superblock::FIRST_BLOCK, 4), (superblock::KEPT_COUNT, 4)],
                Kind::Block => self.on_block(before, number, was[&number]),
                Kind::Free if was[&number] != Kind::Free => vec![(0, kind.mark().len())],
                _ if own.contains(&(number, kind)) => self.on_table(number, kind),
                _ => Vec::new(),
            };
            only(&allowed, old, new)
                .map_err(|at| format!("byte {at} of page {number}, a {kind}, may not change"))?;
        }
        Ok(())
    }

    /// Where a page of the changed table may change that is not written whole: "links, the
    /// skip-list page's three counts, tower entries, the head's current height".
    fn on_table(&self, number: u32, kind: Kind) -> Vec<(usize, usize)> {
        match kind {
            Kind::SkipList => vec![(skip_list::SIZE, 12)],
            Kind::Span => vec![(span::PREVIOUS, 8)],
            Kind::Tower if number == self.new.head.page => {
                let entries = 4 * usize::from(self.new.head.height);
                vec![(tower::CURRENT, 2), (tower::NEXT, entries)]
            }
            Kind::Tower => {
                let mut towers = self.new.towers();
                let tower = towers.find(|tower| tower.page == number);
                let height = tower.map_or(0, |tower| tower.height);
                vec![(tower::NEXT, 4 * usize::from(height))]
            }
            _ => Vec::new(),
        }
    }

    /// Where a block may change: its count and the numbers appended; on a new one also mark and
    /// next.
    fn on_block(&self, before: &[u8], number: u32, was: Kind) -> Vec<(usize, usize)> {
        let mut blocks = self.after.free.iter();
        let block = blocks.find(|block| block.page == number);
        let count = block.map_or(0, |block| block.listed.len());
        if was != Kind::Block {
            return vec![(0, page::listed_number(count))];
        }
        let old = page::read_u32(before, number, block::COUNT) as usize;
        let appended = 4 * count.saturating_sub(old);
        vec![(block::COUNT, 4), (page::listed_number(old), appended)]
    }
}

/// Whether two pages differ only in the allowed bytes, given as offset and length; else the first
/// other byte in which they differ.
fn only(allowed: &[(usize, usize)], old: &[u8], new: &[u8]) -> Result<(), usize> {
    let is_allowed = |at: usize| {
        let mut ranges = allowed.iter();
        ranges.any(|(offset, length)| (*offset..offset + length).contains(&at))
    };
    let mut differing = (0..PAGE).filter(|&at| old[at] != new[at]);
    match differing.find(|&at| !is_allowed(at)) {
        Some(at) => Err(at),
        None => Ok(()),
    }
}

/// Take, on the layout of a free list.
fn take(free: &mut Vec<Block>) -> Option<u32> {
    let first = free.first_mut()?;
    let listed = first.listed.pop();
    Some(listed.unwrap_or_else(|| free.remove(0).page))
}

/// Give back, on the layout of a free list.
fn give_back(free: &mut Vec<Block>, page: u32) {
    match free.first_mut() {
        Some(first) if first.listed.len() < MAX_NUMBERS => first.listed.push(page),
        _ => {
            let listed = Vec::new();
            free.insert(0, Block { page, listed });
        }
    }
}
