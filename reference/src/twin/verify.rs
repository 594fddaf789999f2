//! Is the image well-formed? One pass that claims every page it meets.
//!
//! The heads of the pages, with their marks and links, and the four bytes behind each are first copied
//! to the scratch, in the order of the pages: so they are then read from memory that lies close together. A page is claimed
//! once, in its head, and of its other bytes nothing is read before: so the pass ends on any bytes,
//! in time linear in the image.

use super::entry::{self, Entries, Place};
use super::free;
use super::order::{read_on_page, Keys, Numbers, Order};
use super::page::{bears, page, u16_at, u32_at, Behind, Head, Page, BEHIND, HEAD};
use crate::page::{
    block, listed_number, skip_list, span, superblock, tower, Kind, MAX_NUMBERS, METAINDEX, PAGE,
    SUPERBLOCK,
};
use crate::sort::Sort;

/// What an accepted image holds: check's counts but for P.
#[derive(Clone, Copy, Debug)]
pub struct Counts {
    pub tables: u64,
    pub keys: u64,
    pub free: u64,
}

/// The counts of a well-formed image. `heads` and `behind` are lent, one for each page, and left in
/// any state.
pub fn verify<O: Order>(
    pages: &[Page],
    heads: &mut [Head],
    behind: &mut [Behind],
) -> Option<Counts> {
    for ((head, behind), page) in heads.iter_mut().zip(&mut *behind).zip(pages) {
        head.copy_from_slice(&page[..HEAD]);
        behind.copy_from_slice(&page[HEAD..HEAD + BEHIND]);
    }
    let mut walk = Walk {
        pages,
        heads,
        behind,
        claimed: 0,
    };
    let first_block = walk.superblock()?;
    let free = walk.free_list(first_block)?;
    holds(free::legal_count(page(pages, SUPERBLOCK), free))?;
    let tables = walk.table::<O>(METAINDEX)?;
    let keys = walk.tables::<O>()?;
    holds(walk.claimed == pages.len())?;
    Some(Counts {
        tables: u64::from(tables),
        keys,
        free,
    })
}

/// "Table names, 1 to 255 bytes of 21 to 7e hex."
pub fn legal_name(name: &[u8]) -> bool {
    (1..=255).contains(&name.len()) && legal_bytes(name)
}

fn legal_bytes(name: &[u8]) -> bool {
    name.iter().all(u8::is_ascii_graphic)
}

fn holds(rule: bool) -> Option<()> {
    rule.then_some(())
}

fn legal_span_size(size: u16) -> bool {
    (2..=128).contains(&size)
}

struct Walk<'a> {
    pages: &'a [Page],
    heads: &'a mut [Head],
    behind: &'a [Behind],
    claimed: usize,
}

/// The tower that is next at each level below the head's current.
struct Levels {
    height: usize,
    /// That at level 0, read without waiting for the tower's page.
    lowest: u32,
    next: [u32; MAX_NUMBERS],
    /// The towers met, first tower counted.
    towers: u32,
}

impl<'a> Walk<'a> {
    /// Claims a page that has no owner yet and bears the mark of the kind; gives its head. No mark
    /// begins with 0, so a claimed page bears none.
    #[inline]
    fn claim(&mut self, number: u32, kind: Kind) -> Option<Head> {
        let head = self.heads.get_mut((number as usize).wrapping_sub(1))?;
        holds(bears(head, kind))?;
        let fields = *head;
        head[0] = 0;
        self.claimed += 1;
        Some(fields)
    }

    /// The superblock's fields but for the kept count; gives the first free-list page.
    fn superblock(&mut self) -> Option<u32> {
        self.claim(SUPERBLOCK, Kind::Superblock)?;
        let page = page(self.pages, SUPERBLOCK);
        let high = u64::from(u32_at(page, superblock::FILE_LENGTH));
        let low = u64::from(u32_at(page, superblock::FILE_LENGTH + 4));
        let length = (PAGE * self.pages.len()) as u64;
        holds(page[superblock::MAJOR] == 1 && page[superblock::MINOR] == 2)?;
        holds((high << 32) | low == length)?;
        holds(u16_at(page, superblock::MOUNTED) <= 1)?;
        holds(legal_span_size(u16_at(page, superblock::SPAN_SIZE)))?;
        holds(u32_at(page, superblock::PAGE_SIZE) as usize == PAGE)?;
        Some(u32_at(page, superblock::FIRST_BLOCK))
    }

    /// The chain of free-list blocks; gives F.
    #[inline]
    fn free_list(&mut self, first: u32) -> Option<u64> {
        let before = self.claimed;
        let mut number = first;
        while number != 0 {
            let head = self.claim(number, Kind::Block)?;
            let count = u32_at(&head, block::COUNT) as usize;
            holds(count <= MAX_NUMBERS)?;
            let page = page(self.pages, number);
            for place in 0..count {
                self.claim(u32_at(page, listed_number(place)), Kind::Free)?;
            }
            number = u32_at(&head, block::NEXT);
        }
        Some((self.claimed - before) as u64)
    }

    /// The tables that the metaindex, walked before, names; gives their keys.
    fn tables<O: Order>(&mut self) -> Option<u64> {
        let pages = self.pages;
        let mut keys = 0;
        let mut number = u32_at(page(pages, METAINDEX), skip_list::FIRST_SPAN);
        while number != 0 {
            for entry in Entries::of(pages, number) {
                holds(entry.key.length <= 255 && entry.value.length == 4)?;
                let mut name = entry.key.parts(pages);
                let first = name.next()?;
                holds(legal_bytes(first) && name.all(legal_bytes))?;
                let mut root = [0; 4];
                entry.value.copy_to(pages, &mut root);
                let root = u32::from_be_bytes(root);
                keys += u64::from(match Sort::of(first) {
                    Sort::Bytes => self.table::<O>(root)?,
                    Sort::Numbers => self.table::<Numbers>(root)?,
                });
            }
            number = u32_at(page(pages, number), span::NEXT);
        }
        Some(keys)
    }

    /// A table, or the metaindex, from its skip-list page; gives its keys.
    fn table<K: Keys>(&mut self, root: u32) -> Option<u32> {
        self.claim(root, Kind::SkipList)?;
        let list = page(self.pages, root);
        let span_size = u16_at(list, skip_list::SPAN_SIZE);
        holds(legal_span_size(span_size))?;
        let first = u32_at(list, skip_list::FIRST_SPAN);
        let mut levels = self.head(u32_at(list, skip_list::FIRST_LEVEL), first)?;
        let (mut keys, mut spans) = (0, 0);
        let mut last = K::NONE;
        let (mut previous, mut number) = (0, first);
        loop {
            let head = self.claim(number, Kind::Span)?;
            holds(u32_at(&head, span::PREVIOUS) == previous)?;
            let size = self.span::<K>(number, span_size, &mut last)?;
            if spans > 0 {
                holds(size > 0)?;
                self.tower(number, &mut levels)?;
            }
            keys += u32::from(size);
            spans += 1;
            (previous, number) = (number, u32_at(&head, span::NEXT));
            if number == 0 {
                break;
            }
        }
        holds(levels.ended())?;
        holds(u32_at(list, skip_list::SIZE) == keys)?;
        holds(u32_at(list, skip_list::SPANS) == spans)?;
        holds(u32_at(list, skip_list::LEVELS) == levels.towers)?;
        Some(keys)
    }

    /// The entries of a span, which is claimed, and its continuation pages; gives its size. The
    /// keys have to rise from the last one met, so none of them is empty.
    fn span<K: Keys>(&mut self, number: u32, span_size: u16, last: &mut K::Key) -> Option<u16> {
        let pages = self.pages;
        let sizes = self.behind(number);
        let size = u16_at(sizes, span::SIZE - HEAD);
        holds(u16_at(sizes, span::MAX_KEYS - HEAD) == span_size && size <= span_size)?;
        let mut at = Place::start(number);
        let mut before = *last;
        for _ in 0..size {
            let (key, after) = match read_on_page::<K>(page(pages, at.page), at) {
                Some(read) => read,
                None => self.entry_over_pages::<K>(at)?,
            };
            holds(K::is_below(pages, &before, &key))?;
            (before, at) = (key, after);
        }
        *last = before;
        holds(self.link(at.page) == 0)?;
        Some(size)
    }

    /// The key of an entry that does not lie on one page whole, and the place after the entry.
    #[cold]
    fn entry_over_pages<K: Keys>(&mut self, at: Place) -> Option<(K::Key, Place)> {
        let pages = self.pages;
        let (entry, after) = entry::read(pages, at, &mut |from| self.continuation(from))?;
        holds(K::allows(entry.key.length))?;
        Some((K::over_pages(pages, entry.key), after))
    }

    /// Claims the continuation page after one of a span's pages.
    #[inline]
    fn continuation(&mut self, from: u32) -> Option<u32> {
        let number = self.link(from);
        self.claim(number, Kind::Continuation)?;
        Some(number)
    }

    /// The continuation page after a page that is claimed.
    #[inline]
    fn link(&self, number: u32) -> u32 {
        u32_at(&self.heads[number as usize - 1], span::CONTINUATION)
    }

    /// The bytes behind the head of a page that is claimed.
    #[inline]
    fn behind(&self, number: u32) -> &Behind {
        &self.behind[number as usize - 1]
    }

    /// The head of a table with this first span.
    #[inline]
    fn head(&mut self, number: u32, first: u32) -> Option<Levels> {
        let head = self.claim(number, Kind::Tower)?;
        holds(u32_at(&head, tower::SPAN) == first)?;
        let mut levels = Levels {
            height: height(&head)?,
            lowest: 0,
            next: [0; MAX_NUMBERS],
            towers: 1,
        };
        levels.pass(page(self.pages, number), levels.height);
        levels.lowest = levels.next[0];
        Some(levels)
    }

    /// The tower of a span other than the first, if the next tower on the chain along entry 0 is
    /// its own.
    #[inline(always)]
    fn tower(&mut self, span: u32, levels: &mut Levels) -> Option<()> {
        let number = levels.lowest;
        if number == 0 {
            return Some(());
        }
        let head = self.heads.get(number as usize - 1)?;
        if u32_at(head, tower::SPAN) != span {
            return Some(());
        }
        let height = height(&self.claim(number, Kind::Tower)?)?;
        holds((1..=levels.height).contains(&height) && levels.all_are(number, height))?;
        levels.pass(page(self.pages, number), height);
        levels.lowest = u32_at(self.behind(number), tower::NEXT - HEAD);
        levels.towers += 1;
        Some(())
    }
}

/// A tower's current height, if it keeps to its max height and that to 1 to 252.
fn height(head: &Head) -> Option<usize> {
    let max = usize::from(u16_at(head, tower::MAX_HEIGHT));
    let height = usize::from(u16_at(head, tower::CURRENT));
    ((1..=MAX_NUMBERS).contains(&max) && height <= max).then_some(height)
}

impl Levels {
    /// Whether this tower is next at each level below the height.
    #[inline]
    fn all_are(&self, number: u32, height: usize) -> bool {
        let next = self.next[..height].iter();
        next.fold(0, |differ, one| differ | (one ^ number)) == 0
    }

    /// Goes past a tower: what it names is next at each level below the height.
    #[inline]
    fn pass(&mut self, page: &Page, height: usize) {
        let entries = page[tower::NEXT..].as_chunks::<4>().0;
        for (next, entry) in self.next[..height].iter_mut().zip(entries) {
            *next = u32::from_be_bytes(*entry);
        }
    }

    /// Whether every chain has come to its end.
    fn ended(&self) -> bool {
        self.next[..self.height].iter().all(|next| *next == 0)
    }
}
