//! The search by towers (document 02, T-08) beside the plain search along the spans.
//!
//! "Add one that goes down the towers, remembering the tower passed at each level, and then walks spans
//! from the last tower whose span begins at or below the key, or from the first span if there is none."
//! Which towers are passed is said twice: over the layout, in the words of the request, and by the
//! descent over the bytes of an accepted image.

pub mod agree;
pub mod links;

use crate::entries::{self, Place};
use crate::layout::{Span, Table, Tower};
use crate::page::{self, continuation, skip_list, span, tower, MAX_NUMBERS};
use crate::sort::Sort;

/// "A path struct holding one page number per level (252) and its height, returned by the descent."
#[derive(Clone, Debug, PartialEq, Eq)]
pub struct Path {
    /// The page of the tower passed at each level; 0 from the height on.
    pub passed: [u32; MAX_NUMBERS],
    /// The head's current height.
    pub height: usize,
}

/// Which spans a search passes.
#[derive(Clone, Copy, Debug, PartialEq, Eq)]
pub enum Bound {
    /// Those that begin at or below the key, as T-08 says it. A new tower is linked behind the towers
    /// passed so.
    AtOrBelow,
    /// Those that begin below the key. The tower of a span that begins with the key is taken out from
    /// behind the towers passed so.
    Below,
}

/// A key that is searched for in a table that sorts so.
#[derive(Clone, Copy, Debug)]
pub struct Sought<'a> {
    pub sort: Sort,
    pub key: &'a [u8],
    pub bound: Bound,
}

impl Sought<'_> {
    /// Whether a span that begins with this key is passed.
    fn passes(&self, first: &[u8]) -> bool {
        let order = self.sort.compare(first, self.key);
        match self.bound {
            Bound::AtOrBelow => order.is_le(),
            Bound::Below => order.is_lt(),
        }
    }
}

/// The path by the layout: "The tower remembered at a level below the head's current is the last one
/// there whose span begins at or below the key, the head if none."
pub fn path(table: &Table, sought: &Sought<'_>) -> Path {
    let begins_there = |span: &&Span| {
        let first = span.entries.first();
        first.is_some_and(|entry| sought.passes(&entry.key))
    };
    let spans = table.spans.iter().filter(begins_there);
    let towers: Vec<&Tower> = spans.filter_map(|span| span.tower.as_ref()).collect();
    let height = usize::from(table.head.height);
    let mut passed = [0; MAX_NUMBERS];
    for (level, page) in passed[..height].iter_mut().enumerate() {
        let mut latest = towers.iter().rev();
        let last = latest.find(|tower| usize::from(tower.height) > level);
        *page = last.map_or(table.head.page, |tower| tower.page);
    }
    Path { passed, height }
}

/// The path by the bytes of an accepted image, in the table with this skip-list page: from the head on,
/// at each level as far as the spans are passed, and down to the next.
pub fn descend(image: &[u8], root: u32, sought: &Sought<'_>) -> Path {
    let next = |here: u32, level: usize| {
        let next = page::read_u32(image, here, page::tower_entry(level));
        let is_passed = next != 0 && sought.passes(&first_key(image, span_of(image, next)));
        is_passed.then_some(next)
    };
    let mut here = page::read_u32(image, root, skip_list::FIRST_LEVEL);
    let height = usize::from(page::read_u16(image, here, tower::CURRENT));
    let mut passed = [0; MAX_NUMBERS];
    for level in (0..height).rev() {
        while let Some(tower) = next(here, level) {
            here = tower;
        }
        passed[level] = here;
    }
    Path { passed, height }
}

/// The search by towers: the page of the last span that is passed, or of the first span.
pub fn search(image: &[u8], root: u32, sought: &Sought<'_>) -> u32 {
    let path = descend(image, root, sought);
    // The last tower passed is the one at level 0, and the head's span is the first; a head of current
    // 0 has no levels.
    let from = match path.height {
        0 => first_span(image, root),
        _ => span_of(image, path.passed[0]),
    };
    walk(image, from, sought)
}

/// The plain search: the same by the spans alone.
pub fn plain(image: &[u8], root: u32, sought: &Sought<'_>) -> u32 {
    walk(image, first_span(image, root), sought)
}

/// From a span on, as far as the spans are passed. The first span is not looked at: "An empty first span
/// counts as below every key", and a search that passes no span ends there.
fn walk(image: &[u8], from: u32, sought: &Sought<'_>) -> u32 {
    let next = |here: u32| {
        let next = page::read_u32(image, here, span::NEXT);
        let is_passed = next != 0 && sought.passes(&first_key(image, next));
        is_passed.then_some(next)
    };
    let mut here = from;
    while let Some(span) = next(here) {
        here = span;
    }
    here
}

fn first_span(image: &[u8], root: u32) -> u32 {
    page::read_u32(image, root, skip_list::FIRST_SPAN)
}

fn span_of(image: &[u8], tower: u32) -> u32 {
    page::read_u32(image, tower, tower::SPAN)
}

/// The key that a span begins with, which is not the first and so not empty.
fn first_key(image: &[u8], number: u32) -> Vec<u8> {
    let mut pages = vec![number];
    let mut next = page::read_u32(image, number, span::CONTINUATION);
    while next != 0 {
        pages.push(next);
        next = page::read_u32(image, next, continuation::NEXT);
    }
    let read = entries::read(image, &pages, Place::START);
    read.expect("an entry of an accepted image").0.key
}
