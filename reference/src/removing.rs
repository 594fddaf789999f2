//! Lists of removes among puts, gets, nexts and checks: of keys at every place of a span, on spans
//! that they empty, with and without towers, and on free lists whose first block is full or soon
//! will be; and what was reached.

use crate::entries;
use crate::generate::{self, Knobs, Sample};
use crate::layout::{Layout, Span, Table, Tower};
use crate::page::MAX_NUMBERS;
use crate::putting;
use crate::random::Random;
use crate::reached::{self, held, Cases, Made};
use crate::request::{Call, CallKind};
use crate::script::Script;
use crate::sort::Sort;
use crate::towers::links;
use std::collections::BTreeSet;

/// How many calls a list has.
const CALLS: usize = 8;
/// How many calls a list on a large image has.
const FEW: usize = 3;

/// The heights of towers that have to be unlinked.
const HEIGHTS: [usize; 8] = [1, 2, 3, 4, 5, 6, 12, MAX_NUMBERS];

/// The cases, but for the ends of pages and the heights of towers, that come on full cards too.
pub const ON_FULL_TOO: [&str; 36] = [
    "only key of a span removed",
    "first key of a span removed",
    "middle key of a span removed",
    "last key of a span removed",
    "key removed from a span of 2",
    "key removed from a span of 3",
    "key removed from a span of 128",
    "key removed behind an empty first span",
    "span rewritten on as many pages",
    "span rewritten on one page fewer",
    "span rewritten on 2 or more pages fewer",
    "span rewritten that keeps continuation pages",
    "span rewritten without continuation pages",
    "first span emptied, others follow",
    "first span emptied, no other follows",
    "first span emptied, with continuation pages",
    "span unlinked, with a tower",
    "span unlinked, without a tower",
    "span unlinked, the last",
    "span unlinked, another",
    "span unlinked, with a tower and continuation pages",
    "span unlinked, without a tower, with continuation pages",
    "span unlinked, with 2 or more continuation pages",
    "tower unlinked, as high as the head",
    "tower unlinked, lower than the head",
    "tower unlinked, the only one",
    "tower unlinked, the last of several",
    "tower unlinked, between others",
    "tower unlinked, by several towers before it",
    "tower unlinked, the head's max height 1",
    "tower unlinked, the head's max height 252",
    "no page given back",
    "given back with no block",
    "the first of several given pages became a block",
    "a continuation page became a block",
    "a span became a block",
];

/// The other cases, but for the ends of pages and the heights of towers.
const FIXED: [&str; 11] = [
    reached::GARBAGE,
    reached::COUNT_KEPT,
    reached::NO_COUNT,
    "tower unlinked, the head's max height 3",
    "given back to an empty block",
    "given back to a block with room for one",
    "given back to a full block",
    "given back with several blocks",
    "a given page between others became a block",
    "the last of several given pages became a block",
    "a tower became a block",
];

/// All cases.
pub fn all() -> Vec<String> {
    let on_full_too = ON_FULL_TOO.iter().map(|case| (*case).to_owned());
    let heights = HEIGHTS.into_iter().map(unlinked);
    let links = [Sort::Bytes, Sort::Numbers].map(links::all_unlinked);
    let more = on_full_too.chain(heights).chain(links.concat());
    reached::with_page_ends(&FIXED, more)
}

/// The case of a tower of this height that goes with its span.
fn unlinked(height: usize) -> String {
    format!("tower of height {height} unlinked")
}

/// An image and a list of calls from a seed, and the cases that the list reaches.
pub fn script(seed: u64) -> (Script, Cases) {
    let mut random = Random::new(seed ^ 0x7265_6d6f_7669_6e67);
    let (sample, calls) = image(&mut random);
    let choose = reached::mostly(remove, &[CallKind::Create]);
    reached::list(&mut random, sample, calls, choose, of_remove)
}

/// An image with the number of calls to make on it. Some have a first block that is full, or that
/// the pages of the next removes fill.
fn image(random: &mut Random) -> (Sample, usize) {
    let (sample, calls) = match random.below(100) {
        0..=3 => (putting::spans_of_128(random), FEW),
        4 => (generate::sample(random, &Knobs::few_large()), FEW),
        5..=29 => (generate::sample(random, &Knobs::towers_long()), CALLS),
        30..=39 => (generate::sample(random, &Knobs::odd_towers()), CALLS),
        _ => (generate::sample(random, &Knobs::tiny_long()), CALLS),
    };
    if !random.percent(20) {
        return (sample, calls);
    }
    let count = MAX_NUMBERS - random.below(5);
    (generate::with_first_block(random, sample, count), FEW)
}

/// A remove of a key that is there, if there is one: the first, the last or any of a span. Spans
/// with the fewest keys are chosen more often.
pub fn remove(random: &mut Random, layout: &Layout) -> Option<Call> {
    let tables = layout.tables.iter().filter(|(_, table)| table.keys() > 0);
    let tables: Vec<_> = tables.collect();
    if tables.is_empty() {
        return None;
    }
    let (name, table) = *random.pick(&tables);
    let sizes = table.spans.iter().map(|span| span.entries.len());
    let least = sizes.filter(|size| *size > 0).min();
    let most = if random.percent(60) { least } else { None };
    let fits = |span: &&Span| {
        let size = span.entries.len();
        size > 0 && most.is_none_or(|most| size <= most)
    };
    let spans: Vec<&Span> = table.spans.iter().filter(fits).collect();
    let entries = &random.pick(&spans).entries;
    let place = match random.below(3) {
        0 => 0,
        1 => entries.len() - 1,
        _ => random.below(entries.len()),
    };
    let (name, key) = (name.clone(), entries[place].key.clone());
    Some(Call::Remove { name, key })
}

/// What a remove reaches.
pub fn of_remove(made: &Made<'_>) -> Vec<String> {
    let Call::Remove { name, key } = made.call else {
        return Vec::new();
    };
    let tables = made.tables(name).filter(|_| made.number == 0);
    let Some((old, new)) = tables else {
        return Vec::new();
    };
    let sort = Sort::of(name);
    let place = old.target(sort, key);
    let mut cases = of_key(old, place, key);
    let given = if new.spans.len() < old.spans.len() {
        cases.extend(of_unlinking(old, place));
        cases.extend(links::of_unlinked(sort, old, place));
        given_span(&old.spans[place])
    } else {
        cases.extend(of_rewriting(old, new, place));
        cases.extend(reached::of_entries(new, sort, key));
        let kept = new.spans[place].continuations.len();
        continuations(&old.spans[place].continuations[kept..])
    };
    cases.extend(of_giving(made.before, made.after, &given));
    cases
}

/// Where in its span, and in what span, the key was.
fn of_key(table: &Table, place: usize, key: &[u8]) -> Vec<String> {
    let entries = &table.spans[place].entries;
    let is_first = entries.first().is_some_and(|entry| entry.key == key);
    let is_last = entries.last().is_some_and(|entry| entry.key == key);
    let which = match (is_first, is_last) {
        (true, true) => "only",
        (true, false) => "first",
        (false, true) => "last",
        (false, false) => "middle",
    };
    let behind_empty = table.spans[0].entries.is_empty();
    let mut cases = held(&[("key removed behind an empty first span", behind_empty)]);
    cases.push(format!("{which} key of a span removed"));
    cases.push(format!("key removed from a span of {}", table.span_size));
    cases
}

/// What became of a span that stays: its pages, and whether it is the first one and now empty.
fn of_rewriting(old: &Table, new: &Table, place: usize) -> Vec<String> {
    let (was, is) = (&old.spans[place], &new.spans[place]);
    let kept = entries::continuations(&is.entries);
    let given = was.continuations.len() - kept;
    let is_empty = is.entries.is_empty();
    let is_alone = new.spans.len() == 1;
    held(&[
        ("span rewritten on as many pages", given == 0),
        ("span rewritten on one page fewer", given == 1 && !is_empty),
        (
            "span rewritten on 2 or more pages fewer",
            given > 1 && !is_empty,
        ),
        (
            "span rewritten that keeps continuation pages",
            given > 0 && kept > 0,
        ),
        (
            "span rewritten without continuation pages",
            kept == 0 && !is_empty,
        ),
        ("first span emptied, others follow", is_empty && !is_alone),
        ("first span emptied, no other follows", is_empty && is_alone),
        (
            "first span emptied, with continuation pages",
            is_empty && given > 0,
        ),
    ])
}

/// "A span left empty that is not the first is unlinked, its tower (if any) too."
fn of_unlinking(table: &Table, place: usize) -> Vec<String> {
    let span = &table.spans[place];
    let pages = span.continuations.len();
    let is_last = place + 1 == table.spans.len();
    let is_bare = span.tower.is_none();
    let mut cases = held(&[
        ("span unlinked, with a tower", !is_bare),
        ("span unlinked, without a tower", is_bare),
        ("span unlinked, the last", is_last),
        ("span unlinked, another", !is_last),
        (
            "span unlinked, with a tower and continuation pages",
            !is_bare && pages > 0,
        ),
        (
            "span unlinked, without a tower, with continuation pages",
            is_bare && pages > 0,
        ),
        (
            "span unlinked, with 2 or more continuation pages",
            pages > 1,
        ),
    ]);
    if let Some(tower) = &span.tower {
        cases.extend(of_tower(table, place, tower));
    }
    cases
}

/// The tower that goes with the span at this place: its height, and what stands before and after
/// it.
fn of_tower(table: &Table, place: usize, tower: &Tower) -> Vec<String> {
    let levels = 0..usize::from(tower.height);
    let before: BTreeSet<u32> = levels
        .map(|level| table.tower_before(place, level).page)
        .collect();
    let has_before = table.tower_before(place, 0) != &table.head;
    let has_after = table.tower_after(place, 0) != 0;
    let is_highest = tower.height == table.head.height;
    let mut cases = held(&[
        ("tower unlinked, as high as the head", is_highest),
        ("tower unlinked, lower than the head", !is_highest),
        ("tower unlinked, the only one", !has_before && !has_after),
        (
            "tower unlinked, the last of several",
            has_before && !has_after,
        ),
        ("tower unlinked, between others", has_before && has_after),
        (
            "tower unlinked, by several towers before it",
            before.len() > 1,
        ),
    ]);
    let max = table.head.max;
    cases.push(format!("tower unlinked, the head's max height {max}"));
    cases.push(unlinked(usize::from(tower.height)));
    cases
}

/// Pages in the order in which they are given back, with what they were.
type Given = Vec<(u32, &'static str)>;

/// "Given back: continuation pages in chain order, span, tower."
fn given_span(span: &Span) -> Given {
    let mut given = continuations(&span.continuations);
    given.push((span.page, "span"));
    given.extend(span.tower.map(|tower| (tower.page, "tower")));
    given
}

fn continuations(pages: &[u32]) -> Given {
    let pages = pages.iter();
    pages.map(|&page| (page, "continuation page")).collect()
}

/// What the free list was like, and which of the given pages became a block.
fn of_giving(before: &Layout, after: &Layout, given: &Given) -> Vec<String> {
    if given.is_empty() {
        return vec!["no page given back".to_owned()];
    }
    let listed = before.free.first().map(|block| block.listed.len());
    let mut cases = held(&[
        ("given back with no block", listed.is_none()),
        ("given back to an empty block", listed == Some(0)),
        (
            "given back to a block with room for one",
            listed == Some(MAX_NUMBERS - 1),
        ),
        ("given back to a full block", listed == Some(MAX_NUMBERS)),
        ("given back with several blocks", before.free.len() > 1),
    ]);
    let is_block = |page: u32| after.free.iter().any(|block| block.page == page);
    if let Some(place) = given.iter().position(|(page, _)| is_block(*page)) {
        cases.push(format!("a {} became a block", given[place].1));
        cases.extend(of_place(place, given.len()));
    }
    cases
}

/// Which of several given pages became a block.
fn of_place(place: usize, given: usize) -> Vec<String> {
    let (is_first, is_last) = (place == 0, place + 1 == given);
    held(&[
        (
            "the first of several given pages became a block",
            is_first && !is_last,
        ),
        (
            "a given page between others became a block",
            !is_first && !is_last,
        ),
        (
            "the last of several given pages became a block",
            is_last && !is_first,
        ),
    ])
}
