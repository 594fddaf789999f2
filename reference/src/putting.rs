//! Lists of puts among gets, nexts and checks: with values that end near the end of a page, on spans
//! that are full, on images with odd free lists and with towers of every height; and what was
//! reached.

use crate::entries::{self, Place, MAX_LENGTH};
use crate::events;
use crate::generate::{self, Knobs, Sample};
use crate::layout::{Layout, Span, Table};
use crate::numbers;
use crate::page::{continuation, MAX_NUMBERS, PAGE};
use crate::random::Random;
use crate::reached::{self, held, Cases, Made};
use crate::request::{Call, CallKind};
use crate::script::Script;
use crate::sort::Sort;
use crate::towers::links;
use std::cmp::Ordering;
use std::collections::BTreeSet;

/// How many calls a list has.
const CALLS: usize = 8;
/// How many calls a list on a large image has.
const FEW: usize = 2;
/// The greatest height that a split can give: a table has fewer than 4,096 spans.
const HIGHEST: usize = 11;

/// The kinds of call that a list has not.
const WITHOUT: [CallKind; 2] = [CallKind::Remove, CallKind::Create];

/// The cases of a key that joins a table, but for the ends of pages and the heights of towers.
pub const JOINING: [&str; 14] = [
    "the new key over a page end",
    "the new value over a page end",
    "key joined an empty span",
    "key joined a span of 2",
    "key joined a span of 3",
    "key joined a span of 128",
    "split of a span of 2",
    "split of a span of 3",
    "split of a span of 128",
    "split of the last span",
    "split of another span",
    "head of max height 1",
    "head of max height 3",
    "head of max height 252",
];

/// The other cases, but for the heights of towers.
const OTHERS: [&str; 18] = [
    reached::GARBAGE,
    reached::COUNT_KEPT,
    reached::NO_COUNT,
    "value replaced",
    "value replaced on fewer pages",
    "value replaced on as many pages",
    "value replaced on more pages",
    "split that takes no page",
    "old continuation became span",
    "head raised by 2 or more",
    "new tower between others",
    "page taken from several blocks",
    "an empty block taken",
    "the last free page taken",
    "done with no page free",
    "no room with no page free",
    "no room with some pages free",
    "page given back past a full block",
];

/// All cases: new towers of every height that there can be, beside towers of every height up to 12, and
/// linked in each order of keys.
pub fn all() -> Vec<String> {
    let new = (0..=HIGHEST).map(new_tower);
    let linked = [Sort::Bytes, Sort::Numbers].map(links::all_new);
    let others = OTHERS.iter().map(|case| (*case).to_owned());
    let more = others.chain(new).chain((1..=12).map(beside));
    let more = more.chain(linked.concat());
    reached::with_page_ends(&JOINING, more)
}

/// The case of a new tower of this height; 0 is a split with none.
pub fn new_tower(height: usize) -> String {
    format!("new tower of height {height}")
}

/// The case of a new tower in a table that has another of this height.
fn beside(height: usize) -> String {
    format!("beside a tower of height {height}")
}

/// An image and a list of calls from a seed, and the cases that the list reaches.
pub fn script(seed: u64) -> (Script, Cases) {
    let mut random = Random::new(seed ^ 0x7075_7474_696e_6721);
    let (sample, calls) = image(&mut random);
    let choose = reached::mostly(put, &WITHOUT);
    reached::list(&mut random, sample, calls, choose, of_put)
}

/// An image with the number of calls to make on it.
fn image(random: &mut Random) -> (Sample, usize) {
    let knobs = match random.below(100) {
        0..=7 => return (split_next(random), FEW),
        8..=11 => return (spans_of_128(random), FEW),
        12..=13 => {
            let sample = generate::sample(random, &Knobs::long_free_list());
            return (sample, CALLS / 2);
        }
        14..=19 => Knobs::towers_long(),
        20..=25 => Knobs::odd_towers(),
        _ => Knobs::tiny_long(),
    };
    (generate::sample(random, &knobs), CALLS)
}

/// An image with a table whose next split gives a tower of any height that is possible, with the
/// greater heights less often since they take large images.
fn split_next(random: &mut Random) -> Sample {
    let height = match random.below(40) {
        0 => HIGHEST - random.below(3),
        1..=3 => 7 + random.below(2),
        _ => random.within(1..=6),
    };
    // Few images are large: they have the room, and the head allows the height.
    let is_large = height > 6;
    let max = *random.pick(if is_large {
        &[12, MAX_NUMBERS]
    } else {
        &[1, 3, 12, MAX_NUMBERS, MAX_NUMBERS]
    });
    let size = *random.pick(&[2, 3]);
    let free = random.within(if is_large { 2..=5 } else { 0..=5 });
    generate::full_spans(random, (1 << height) - 1, size, max, free)
}

/// An image with a table of full spans of 128 keys.
pub fn spans_of_128(random: &mut Random) -> Sample {
    let spans = random.within(1..=3);
    let free = random.below(6);
    generate::full_spans(random, spans, 128, 12, free)
}

/// A put into a table, if there is one.
pub fn put(random: &mut Random, layout: &Layout) -> Option<Call> {
    if layout.tables.is_empty() {
        return None;
    }
    let (name, table) = random.pick(&layout.tables);
    let sort = Sort::of(name);
    let key = some_key(random, sort, table);
    let length = value_length(random, layout, sort, table, &key);
    Some(Call::Put {
        name: name.clone(),
        value: random.bytes(length),
        key,
    })
}

/// A span of a table. Those with the most keys are chosen more often.
pub fn crowded_span<'a>(random: &mut Random, table: &'a Table) -> &'a Span {
    let most = table.spans.iter().map(|span| span.entries.len()).max();
    let least = if random.percent(60) { most } else { Some(0) };
    let fits = |span: &&Span| Some(span.entries.len()) >= least;
    let spans: Vec<&Span> = table.spans.iter().filter(fits).collect();
    spans[random.below(spans.len())]
}

/// A key of a span, or one behind it; any for an empty span.
fn some_key(random: &mut Random, sort: Sort, table: &Table) -> Vec<u8> {
    let entries = &crowded_span(random, table).entries;
    if entries.is_empty() {
        return generate::key(random, sort, &Knobs::tiny());
    }
    let there = &random.pick(entries).key;
    if random.percent(35) {
        return there.clone();
    }
    match sort {
        Sort::Bytes => behind(random, there),
        Sort::Numbers => numbers::beside(random, there),
    }
}

/// A key behind another, with that as a prefix; sometimes a long one.
fn behind(random: &mut Random, key: &[u8]) -> Vec<u8> {
    let mut key = key.to_vec();
    let more = match random.below(12) {
        0 => 900 + random.below(1200),
        _ => 1 + random.below(2),
    };
    let byte = *random.pick(&[0x00, 0x01, 0x80, 0xff]);
    key.resize((key.len() + more).min(MAX_LENGTH), byte);
    key
}

/// The length of a value: such that it ends near the end of a page, or that the span takes all free
/// pages or one more than there are, or any.
pub fn value_length(
    random: &mut Random,
    layout: &Layout,
    sort: Sort,
    table: &Table,
    key: &[u8],
) -> usize {
    let span = &table.spans[table.target(sort, key)];
    let before: Vec<_> = span
        .entries
        .iter()
        .filter(|entry| sort.compare(&entry.key, key).is_lt())
        .cloned()
        .collect();
    let at = entries::end(&before).after_entry(key.len(), 0);
    let length = match random.below(20) {
        0..=8 => generate::length_to_page_end(random, at),
        9..=10 => to_the_last_page(random, layout, span, at),
        11..=13 => random.below(3000),
        14 => 0,
        _ => random.below(60),
    };
    length.min(MAX_LENGTH)
}

/// A length with which an entry that ends a span takes its old continuation pages and all free
/// pages, or one more.
fn to_the_last_page(random: &mut Random, layout: &Layout, span: &Span, at: Place) -> usize {
    let most = span.continuations.len() + layout.free_pages();
    let pages = most.saturating_sub(at.page) + random.below(2);
    at.left() + pages * (PAGE - continuation::DATA) - random.below(4).min(at.left())
}

/// What a put reaches.
fn of_put(made: &Made<'_>) -> Vec<String> {
    let Call::Put { name, key, .. } = made.call else {
        return Vec::new();
    };
    let Some((old, new)) = made.tables(name) else {
        return Vec::new();
    };
    let free = made.before.free_pages();
    let is_refused = made.number == 10;
    let mut cases = held(&[
        ("no room with no page free", is_refused && free == 0),
        ("no room with some pages free", is_refused && free > 0),
    ]);
    if made.number == 0 {
        let sort = Sort::of(name);
        cases.extend(reached::of_entries(new, sort, key));
        cases.extend(of_spans(old, new, sort, key));
        cases.extend(reached::of_taking(made.before, made.after));
        let events = events::events(made.before, made.after);
        cases.extend(events.into_iter().map(str::to_owned));
    }
    cases
}

/// What became of the target span: its value replaced, its keys one more, or split.
pub fn of_spans(old: &Table, new: &Table, sort: Sort, key: &[u8]) -> Vec<String> {
    let place = old.target(sort, key);
    let (was, is) = (&old.spans[place], &new.spans[place]);
    if old.value(key).is_some() {
        let pages = match is.continuations.len().cmp(&was.continuations.len()) {
            Ordering::Less => "fewer",
            Ordering::Equal => "as many",
            Ordering::Greater => "more",
        };
        let on = format!("value replaced on {pages} pages");
        return vec!["value replaced".to_owned(), on];
    }
    if new.spans.len() > old.spans.len() {
        return of_split(old, new, sort, place);
    }
    let mut cases = vec![format!("key joined a span of {}", old.span_size)];
    if was.entries.is_empty() {
        cases.push("key joined an empty span".to_owned());
    }
    cases
}

/// The split of the span at this place: where it was, its pages and its new tower.
fn of_split(old: &Table, new: &Table, sort: Sort, place: usize) -> Vec<String> {
    let (was, is, added) = (&old.spans[place], &new.spans[place], &new.spans[place + 1]);
    let which = match place + 1 == old.spans.len() {
        true => "the last",
        false => "another",
    };
    let height = added.tower.map_or(0, |tower| usize::from(tower.height));
    let mut cases = vec![
        format!("split of a span of {}", old.span_size),
        format!("split of {which} span"),
        format!("head of max height {}", old.head.max),
        new_tower(height),
    ];
    if height > 0 {
        let heights: BTreeSet<u16> = old.towers().map(|tower| tower.height).collect();
        cases.extend(heights.into_iter().map(|one| beside(usize::from(one))));
    }
    let drawn = is.continuations.len() + 1 + added.continuations.len() + height.min(1);
    let takes_none = drawn <= was.continuations.len();
    cases.extend(held(&[("split that takes no page", takes_none)]));
    cases.extend(links::of_new(sort, old, new, place + 1));
    cases
}
