//! The orders of keys: by their bytes, and in offset tables as numbers.

use super::entry::{lengths_at, Place, Run, LENGTHS};
use super::page::{page, Page};
use crate::page::PAGE;
use std::cmp::Ordering;

/// The keys of a table in its order.
pub trait Keys {
    /// A key as it is compared with the one after it.
    type Key: Copy;

    /// What is below every key.
    const NONE: Self::Key;

    /// Whether a key may have this length. That none is empty need not be asked: it would not be above
    /// `NONE`.
    fn allows(length: usize) -> bool;

    /// The key that this run is. `bytes` are those of its page from where it begins; `None` if they are
    /// too few.
    fn on_page(bytes: &[u8], run: Run) -> Option<Self::Key>;

    /// The key that this run is, wherever it lies.
    fn over_pages(pages: &[Page], run: Run) -> Self::Key;

    /// Whether one key is below another.
    fn is_below(pages: &[Page], one: &Self::Key, other: &Self::Key) -> bool;

    /// The order of a key on an accepted image and a lent one: one that the table may hold, or the empty
    /// one.
    fn compare(pages: &[Page], stored: Run, lent: &[u8]) -> Ordering;
}

/// The key of the entry at a place, and the place after the entry, where the key may have its length and
/// the entry lies on one page whole and not at its very end.
#[inline(always)]
pub fn read_on_page<K: Keys>(page: &Page, at: Place) -> Option<(K::Key, Place)> {
    let (key, value) = lengths_at(page, at.offset)?;
    // Before the sum, so that it takes less time where there is only one length that a key may have.
    if !K::allows(key) {
        return None;
    }
    let key_at = at.offset + LENGTHS;
    let end = key_at + key + value;
    if end > PAGE {
        return None;
    }
    let on_page = |offset| Place { offset, ..at };
    let run = Run {
        at: on_page(key_at),
        length: key,
    };
    let key = K::on_page(page.get(key_at..)?, run)?;
    Some((key, on_page(end)))
}

/// Keys that sort as numbers.
pub struct Numbers;

/// The length of such a key.
const NUMBER: usize = 4;

#[inline(always)]
fn number(bytes: [u8; NUMBER]) -> i64 {
    i64::from(i32::from_be_bytes(bytes))
}

impl Keys for Numbers {
    /// Wider than the numbers, so that there is one below all of them.
    type Key = i64;

    const NONE: i64 = i64::MIN;

    #[inline(always)]
    fn allows(length: usize) -> bool {
        length == NUMBER
    }

    #[inline(always)]
    fn on_page(bytes: &[u8], _: Run) -> Option<i64> {
        bytes.first_chunk().copied().map(number)
    }

    fn over_pages(pages: &[Page], run: Run) -> i64 {
        let mut bytes = [0; NUMBER];
        run.copy_to(pages, &mut bytes);
        number(bytes)
    }

    #[inline(always)]
    fn is_below(_: &[Page], one: &i64, other: &i64) -> bool {
        one < other
    }

    #[inline]
    fn compare(pages: &[Page], stored: Run, lent: &[u8]) -> Ordering {
        let page = page(pages, stored.at.page);
        let on_page = Numbers::on_page(&page[stored.at.offset..], stored);
        let stored = on_page.unwrap_or_else(|| Numbers::over_pages(pages, stored));
        let lent = lent.first_chunk().copied().map_or(Numbers::NONE, number);
        stored.cmp(&lent)
    }
}

/// How the twin compares the bytes of keys that it cannot order by their prefixes. It is a parameter,
/// so that the time of another comparison can be set beside that of the twin's own, and so that a
/// test can show that a wrong one is found out.
pub trait Order {
    /// The order of two pieces of the same length.
    fn pieces(one: &[u8], other: &[u8]) -> Ordering;

    /// The order of two keys of these lengths that agree as far as both go.
    fn lengths(one: usize, other: usize) -> Ordering {
        one.cmp(&other)
    }
}

/// The twin's own comparison: that of slices.
pub struct Slices;

impl Order for Slices {
    #[inline(always)]
    fn pieces(one: &[u8], other: &[u8]) -> Ordering {
        one.cmp(other)
    }
}

/// A comparison by a plain loop, byte by byte.
pub struct ByteLoop;

impl Order for ByteLoop {
    #[inline(always)]
    fn pieces(one: &[u8], other: &[u8]) -> Ordering {
        for (one, other) in one.iter().zip(other) {
            if one != other {
                return one.cmp(other);
            }
        }
        Ordering::Equal
    }
}

/// A key with its prefix: the first eight bytes as a number, as if zeros followed the key. Where
/// two keys differ in it, it has their order.
#[derive(Clone, Copy, Debug)]
pub struct Key {
    prefix: u64,
    run: Run,
}

/// The first bytes of a number, by how many of them are wanted.
const MASKS: [u64; 9] = {
    let mut masks = [u64::MAX; 9];
    let mut count = 0;
    while count < 8 {
        masks[count] = !(u64::MAX >> (8 * count));
        count += 1;
    }
    masks
};

impl<O: Order> Keys for O {
    type Key = Key;

    /// The empty key.
    const NONE: Key = Key {
        prefix: 0,
        run: Run {
            at: Place { page: 1, offset: 0 },
            length: 0,
        },
    };

    #[inline(always)]
    fn allows(_: usize) -> bool {
        true
    }

    #[inline(always)]
    fn on_page(bytes: &[u8], run: Run) -> Option<Key> {
        let number = u64::from_be_bytes(*bytes.first_chunk()?);
        let prefix = number & MASKS[run.length.min(8)];
        Some(Key { prefix, run })
    }

    fn over_pages(pages: &[Page], run: Run) -> Key {
        let mut bytes = [0; 8];
        let length = run.length.min(8);
        Run { length, ..run }.copy_to(pages, &mut bytes);
        let prefix = u64::from_be_bytes(bytes);
        Key { prefix, run }
    }

    #[inline(always)]
    fn is_below(pages: &[Page], one: &Key, other: &Key) -> bool {
        one.prefix < other.prefix
            || (one.prefix == other.prefix && is_below::<O>(pages, one.run, other.run))
    }

    fn compare(pages: &[Page], stored: Run, lent: &[u8]) -> Ordering {
        let length = stored.length.min(lent.len());
        let mut rest = &lent[..length];
        for part in (Run { length, ..stored }).parts(pages) {
            let (here, later) = rest.split_at(part.len());
            let order = O::pieces(part, here);
            if order.is_ne() {
                return order;
            }
            rest = later;
        }
        O::lengths(stored.length, lent.len())
    }
}

/// Whether one run is below another.
#[inline(never)]
fn is_below<O: Order>(pages: &[Page], mut one: Run, mut other: Run) -> bool {
    loop {
        let (here, there) = (one.part(pages), other.part(pages));
        let count = here.len().min(there.len());
        if count == 0 {
            return O::lengths(one.length, other.length).is_lt();
        }
        let order = O::pieces(&here[..count], &there[..count]);
        if order.is_ne() {
            return order.is_lt();
        }
        one.advance(count);
        other.advance(count);
    }
}
