//! Lists that empty full cards: no page is free, and every key of every table is removed, in random
//! order; and what was reached while no page was free.

use crate::entries::{self, Entry, Place};
use crate::generate::{self, Knobs, Sample};
use crate::layout::{Layout, Table};
use crate::page::PAGE;
use crate::random::Random;
use crate::reached::{self, held, Cases, Made};
use crate::removing;
use crate::request::{Call, Request};
use crate::script::Script;
use crate::sort::Sort;

/// After how many removes a card has to be still full.
const STILL_FULL: [usize; 4] = [2, 10, 30, 100];

/// The cases that are not those of a full card.
const FIXED: [&str; 5] = [
    reached::GARBAGE,
    reached::COUNT_KEPT,
    reached::NO_COUNT,
    "key removed with pages free",
    "last key of all removed with pages free",
];

/// The cases of a remove on a full card, but for the ends of pages and how long it is full.
const FULL: [&str; 13] = [
    "key removed",
    "the removed key over a page end",
    "the removed value over a page end",
    "the removed entry behind few bytes left",
    "few bytes left anew before a later entry",
    "few bytes left anew, as many pages as before",
    "few bytes left no more before a later entry",
    "1 or more continuation pages, all kept",
    "2 or more continuation pages, all kept",
    "another table than before",
    "last key of a table removed",
    "last key of all removed",
    "all tables empty and no page free",
];

/// All cases.
pub fn all() -> Vec<String> {
    let fixed = FIXED.iter().map(|case| (*case).to_owned());
    let full = reached::with_page_ends(&FULL, STILL_FULL.into_iter().map(still_full));
    let removing = removing::ON_FULL_TOO.iter().map(|case| (*case).to_owned());
    let full = full.into_iter().chain(removing);
    fixed.chain(full.map(|case| on_full(&case))).collect()
}

/// The case of a remove on a full card that is this case of a remove.
fn on_full(case: &str) -> String {
    format!("full: {case}")
}

/// The case of a card that has no page free after so many removes.
fn still_full(removes: usize) -> String {
    format!("no page free after {removes} removes")
}

/// A full card and the list that empties it, from a seed, and the cases that the list reaches.
pub fn script(seed: u64) -> (Script, Cases) {
    let mut random = Random::new(seed ^ 0x656d_7074_7969_6e67);
    let sample = image(&mut random);
    let calls = calls(&mut random, &sample.layout);
    let mut step = 0;
    reached::list(
        &mut random,
        sample,
        calls.len(),
        |random, layout, _, step| with_scratch(random, layout, calls[step].clone()),
        |made| {
            let earlier = &calls[..step];
            step += 1;
            of_call(made, earlier)
        },
    )
}

/// A card with no page free and at least one key.
fn image(random: &mut Random) -> Sample {
    let knobs = match random.below(100) {
        0 => return generate::full_spans(random, 2, 128, 12, 0),
        1 => Knobs::few_large(),
        2..=14 => small_entries(),
        15..=41 => towers(),
        42..=75 => page_ends(),
        _ => Knobs::tiny_long(),
    };
    loop {
        let sample = generate::full(random, &knobs);
        if sample.layout.keys() > 0 {
            return sample;
        }
    }
}

/// Cards with many keys on few pages, so that most removes give no page back.
fn small_entries() -> Knobs {
    Knobs {
        pages: 10..=25,
        tables: 2..=6,
        spans: 1..=3,
        span_sizes: vec![16, 64, 128],
        fill: 5..=40,
        near_page_end: 0,
        long: 0,
        ..Knobs::tiny()
    }
}

/// Cards with several tables of many spans and towers, some over several pages.
fn towers() -> Knobs {
    Knobs {
        pages: 20..=60,
        tables: 1..=3,
        spans: 4..=15,
        ..Knobs::towers_long()
    }
}

/// Cards with several entries of a span near the ends of its pages.
pub fn page_ends() -> Knobs {
    Knobs {
        pages: 12..=40,
        tables: 1..=3,
        spans: 1..=4,
        span_sizes: vec![3, 4, 16],
        fill: 2..=8,
        near_page_end: 60,
        long: 10,
        ..Knobs::tiny()
    }
}

/// A remove of every key of every table, in random order, and a check.
fn calls(random: &mut Random, layout: &Layout) -> Vec<Call> {
    let mut calls = Vec::new();
    for (name, table) in &layout.tables {
        calls.extend(table.entries().map(|entry| Call::Remove {
            name: name.clone(),
            key: entry.key.clone(),
        }));
    }
    random.shuffle(&mut calls);
    calls.push(Call::Check);
    calls
}

/// The call with a scratch that is long enough, so that it is not refused.
fn with_scratch(random: &mut Random, layout: &Layout, call: Call) -> Request {
    let needed = PAGE * layout.pages as usize;
    Request {
        call,
        scratch_length: needed + *random.pick(&[0, 0, 1, 1000]),
        answer_length: 0,
        fill: random.next_u64(),
    }
}

/// Whether nothing but empty tables is left: each has a skip-list page, a head and a first span, and
/// beside them only the superblock and the pages of the metaindex are not free.
pub fn nothing_left(layout: &Layout) -> Result<(), String> {
    let used = 1 + layout.meta.owners().len() + 3 * layout.tables.len();
    let (keys, free) = (layout.keys(), layout.free_pages());
    if keys == 0 && used + free == layout.pages as usize {
        return Ok(());
    }
    Err(format!(
        "{keys} keys left, {free} pages free, {used} in use"
    ))
}

/// What a call of the list reaches, after the earlier ones.
fn of_call(made: &Made<'_>, earlier: &[Call]) -> Vec<String> {
    let (Call::Remove { name, key }, 0) = (made.call, made.number) else {
        return Vec::new();
    };
    let is_last = made.after.keys() == 0;
    if made.before.free_pages() > 0 {
        return held(&[
            ("key removed with pages free", true),
            ("last key of all removed with pages free", is_last),
        ]);
    }
    let is_full = made.after.free_pages() == 0;
    let before = earlier.last().and_then(Call::name);
    let mut cases = held(&[
        ("key removed", true),
        (
            "another table than before",
            before.is_some_and(|one| one != name),
        ),
        ("last key of all removed", is_last),
        ("all tables empty and no page free", is_last && is_full),
    ]);
    if is_full {
        cases.push(still_full(earlier.len() + 1));
    }
    if let Some((old, new)) = made.tables(name) {
        cases.extend(held(&[("last key of a table removed", new.keys() == 0)]));
        cases.extend(of_entry(old, Sort::of(name), key));
    }
    cases.extend(removing::of_remove(made));
    cases.iter().map(|case| on_full(case)).collect()
}

/// Where the removed entry lies on the pages of its span, and what comes of the few bytes that are
/// left on a page before a later one.
fn of_entry(table: &Table, sort: Sort, key: &[u8]) -> Vec<String> {
    let mut earlier = table.spans[table.target(sort, key)].entries.clone();
    let is_below = |entry: &Entry| sort.compare(&entry.key, key).is_lt();
    let mut later = earlier.split_off(earlier.partition_point(is_below));
    let removed = later.remove(0);
    let at = entries::end(&earlier);
    let value_at = at.after_entry(key.len(), 0);
    let end = value_at.after(removed.value.len());
    let (had, has) = (few_left(end, &later), few_left(at, &later));
    let anew = had.iter().zip(&has).any(|(had, has)| !had && *has);
    let no_more = had.iter().zip(&has).any(|(had, has)| *had && !has);
    let pages = |from| entries::end_from(from, &later).page;
    let kept = pages(at);
    let keeps_all = kept == pages(end);
    held(&[
        (
            "the removed key over a page end",
            value_at.page > at.lengths().after(4).page,
        ),
        (
            "the removed value over a page end",
            end.page > value_at.page,
        ),
        ("the removed entry behind few bytes left", is_few(at)),
        ("few bytes left anew before a later entry", anew),
        (
            "few bytes left anew, as many pages as before",
            anew && keeps_all,
        ),
        ("few bytes left no more before a later entry", no_more),
        (
            "1 or more continuation pages, all kept",
            keeps_all && kept > 0,
        ),
        (
            "2 or more continuation pages, all kept",
            keeps_all && kept > 1,
        ),
    ])
}

/// Whether 1 to 3 bytes are left on the page, so that the lengths of the next entry move on.
fn is_few(place: Place) -> bool {
    (1..4).contains(&place.left())
}

/// Whether few bytes are left before each of these entries, which begin at or after a place.
fn few_left(from: Place, entries: &[Entry]) -> Vec<bool> {
    let mut place = from;
    let mut few = Vec::new();
    for entry in entries {
        few.push(is_few(place));
        place = place.after_entry(entry.key.len(), entry.value.len());
    }
    few
}
