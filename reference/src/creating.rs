//! Lists over all six calls: tables are created, filled, emptied and looked up, on images whose
//! metaindex has full spans and whose free pages are just enough, one too few, or many; and what was
//! reached.

use crate::edit;
use crate::entries::{self, Place};
use crate::events;
use crate::generate::{self, Knobs, Sample};
use crate::layout::{Layout, Table};
use crate::page::{continuation, PAGE};
use crate::putting;
use crate::random::Random;
use crate::reached::{self, held, Cases, Made};
use crate::request::{Call, CallKind};
use crate::script::{self, Script, Trend};
use crate::sort::Sort;
use crate::towers::links;
use std::collections::BTreeMap;

/// How many calls a list has.
const CALLS: usize = 12;
/// How many calls a list on an image with many tables has.
const FEW: usize = 3;
/// How many calls a long list has: tables are filled by the first half, emptied by most of the rest.
const LONG: usize = 400;

/// The length of a value in the metaindex: "each value is four bytes".
const VALUE: usize = 4;

/// The greatest height of a new tower of the metaindex that has to be reached.
const HIGHEST: usize = 6;

/// The cases of a create, but for those of a name that joins the metaindex.
const CREATES: [&str; 17] = [
    reached::GARBAGE,
    reached::COUNT_KEPT,
    reached::NO_COUNT,
    "table created with span size 2",
    "table created with span size 3",
    "table created with span size 128",
    "create took the last free pages",
    "create with a split took the last free pages",
    "create with a new tower took the last free pages",
    "create one page short",
    "create with a split one page short",
    "create more than one page short",
    "create with no page free",
    "page taken from several blocks",
    "an empty block taken",
    "old continuation became span",
    "head raised by 2 or more",
];

/// The cases of tables that the list itself created.
const LIVES: [&str; 25] = [
    "check after a create",
    "get in a created table: 0",
    "get in a created table: 8",
    "get in a created table: 9",
    "next in a created table: 0",
    "next in a created table: 8",
    "next in a created table: 9",
    "put in a created table: 0",
    "put in a created table: 10",
    "remove in a created table: 0",
    "remove in a created table: 8",
    "create in a created table: 7",
    "created table split",
    "created table split, with a new tower",
    "value replaced in a created table",
    "span of a created table unlinked",
    "tower of a created table unlinked",
    "created table emptied",
    "created table emptied by an unlinked span",
    "get in an emptied table: 8",
    "next in an emptied table: 8",
    "put in an emptied table: 0",
    "remove in an emptied table: 8",
    "create in an emptied table: 7",
    "check after a table was emptied",
];

/// All cases.
pub fn all() -> Vec<String> {
    let fixed = CREATES.iter().chain(&LIVES).map(|case| (*case).to_owned());
    let towers = (0..=HIGHEST).map(putting::new_tower);
    let towers = towers.chain(links::all_new(Sort::Bytes));
    let names = reached::with_page_ends(&putting::JOINING, towers);
    let names = names.iter().map(|case| in_metaindex(case));
    fixed.chain(names).collect()
}

/// The case of a create that is this case of a put.
fn in_metaindex(case: &str) -> String {
    format!("metaindex: {case}")
}

/// An image and a list of calls from a seed, and the cases that the list reaches.
pub fn script(seed: u64) -> (Script, Cases) {
    let mut random = Random::new(seed ^ 0x6372_6561_7469_6e67);
    let (sample, calls) = image(&mut random);
    let trend = Trend::any(&mut random);
    let mut created = Created::new();
    reached::list(
        &mut random,
        sample,
        calls,
        |random, layout, ledger, step| {
            let trend = if calls == LONG { phase(step) } else { trend };
            let call = match trend != Trend::Draining && random.percent(20) {
                true => create(random, &layout.meta),
                false => script::call(random, ledger.tables(), trend),
            };
            script::with_buffers(random, ledger, call)
        },
        |made| {
            let mut cases = of_create(made);
            cases.extend(of_life(&mut created, made));
            cases
        },
    )
}

/// What most calls do at this step of a long list.
fn phase(step: usize) -> Trend {
    match step * 8 / LONG {
        0..=3 => Trend::Filling,
        4..=6 => Trend::Draining,
        _ => Trend::Mixed,
    }
}

/// An image with the number of calls to make on it.
fn image(random: &mut Random) -> (Sample, usize) {
    let (knobs, calls) = match random.below(1000) {
        0..=5 => (roomy(), LONG),
        6..=13 => (full_metaindex(128, 129), FEW),
        14..=49 => {
            let size = *random.pick(&[2, 3]);
            let spans = (1 << random.within(1..=HIGHEST)) - 1;
            (full_metaindex(size, spans * usize::from(size)), FEW)
        }
        50..=99 => (many_names(), CALLS),
        _ => (small(), CALLS),
    };
    (generate::sample(random, &knobs), calls)
}

/// Images with few tables of few keys.
fn small() -> Knobs {
    Knobs {
        pages: 8..=30,
        tables: 0..=5,
        spans: 0..=2,
        span_sizes: vec![2, 2, 3, 3, 128],
        fill: 1..=3,
        long: 3,
        crowded: 40,
        ..Knobs::tiny()
    }
}

/// Images with few tables and much room.
fn roomy() -> Knobs {
    Knobs {
        pages: 80..=300,
        near_page_end: 5,
        long: 2,
        crowded: 0,
        ..small()
    }
}

/// Images with so many names in a span that they go on over continuation pages.
fn many_names() -> Knobs {
    Knobs {
        pages: 100..=140,
        tables: 15..=30,
        span_sizes: vec![128],
        fill: 10..=30,
        spans: 0..=0,
        crowded: 20,
        ..Knobs::tiny()
    }
}

/// Images with so many empty tables, whose names fill the spans of the metaindex, and with few pages
/// free.
pub fn full_metaindex(span_size: u16, tables: usize) -> Knobs {
    let fill = usize::from(span_size);
    let pages = 60 + 3 * tables + 3 * tables / fill;
    Knobs {
        pages: pages..=pages,
        tables: tables..=tables,
        spans: 0..=0,
        span_sizes: vec![span_size],
        fill: fill..=fill,
        high: 20,
        crowded: 50,
        ..Knobs::tiny()
    }
}

/// A create of a table whose name comes behind one in the metaindex, sometimes of that name itself.
pub fn create(random: &mut Random, meta: &Table) -> Call {
    let entries = &putting::crowded_span(random, meta).entries;
    if entries.is_empty() || random.percent(15) {
        let name = generate::name(random);
        return Call::Create { name };
    }
    let place = random.below(entries.len());
    let mut name = entries[place].key.clone();
    let length = match random.below(3) {
        0 => length_to_page_end(random, entries::end(&entries[..=place])),
        1 => name.len() + 255 * random.below(2),
        _ => name.len() + random.within(1..=2),
    };
    let length = length.clamp(name.len(), 255);
    name.resize(length, *random.pick(&[0x21, b'a', 0x7e]));
    Call::Create { name }
}

/// The length of a name with which an entry after this place ends near the end of a page, or its
/// value runs on over it.
fn length_to_page_end(random: &mut Random, after: Place) -> usize {
    let on_page = random.below(VALUE + 1);
    let at = after.after_entry(0, on_page);
    generate::length_to_page_end(random, at) % (PAGE - continuation::DATA)
}

/// What a create reaches.
fn of_create(made: &Made<'_>) -> Vec<String> {
    match (made.call, made.number) {
        (Call::Create { name }, 0) => of_done(made, name),
        (Call::Create { name }, 10) => of_no_room(made.before, name),
        _ => Vec::new(),
    }
}

/// What a done create reaches: "a put of the name into the metaindex that also wants, last, a
/// skip-list page, a span and a head tower".
fn of_done(made: &Made<'_>, name: &[u8]) -> Vec<String> {
    let (before, after) = (made.before, made.after);
    let sort = Sort::Bytes;
    let mut in_names = reached::of_entries(&after.meta, sort, name);
    in_names.extend(putting::of_spans(&before.meta, &after.meta, sort, name));
    let is_full = after.free_pages() == 0;
    let is_split = after.meta.spans.len() > before.meta.spans.len();
    let has_tower = after.meta.levels() > before.meta.levels();
    let mut cases = held(&[
        ("create took the last free pages", is_full),
        (
            "create with a split took the last free pages",
            is_full && is_split,
        ),
        (
            "create with a new tower took the last free pages",
            is_full && has_tower,
        ),
    ]);
    let size = before.span_size;
    cases.push(format!("table created with span size {size}"));
    cases.extend(in_names.iter().map(|case| in_metaindex(case)));
    cases.extend(reached::of_taking(before, after));
    let events = events::events(before, after);
    cases.extend(events.into_iter().map(str::to_owned));
    cases
}

/// What a create reaches for which there is no room.
fn of_no_room(before: &Layout, name: &[u8]) -> Vec<String> {
    let short = edit::create_lacks(before, name);
    let meta = &before.meta;
    let target = &meta.spans[meta.target(Sort::Bytes, name)];
    let is_split = target.entries.len() == usize::from(meta.span_size);
    held(&[
        ("create one page short", short == 1),
        ("create with a split one page short", short == 1 && is_split),
        ("create more than one page short", short > 1),
        ("create with no page free", before.free_pages() == 0),
    ])
}

/// The tables that a list created, each with whether it was emptied since.
type Created = BTreeMap<Vec<u8>, bool>;

/// What a call does with a table that the list created.
fn of_life(created: &mut Created, made: &Made<'_>) -> Vec<String> {
    let (kind, number) = (made.call.kind(), made.number);
    let Some(name) = made.call.name() else {
        let emptied = created.values().any(|emptied| *emptied);
        return held(&[
            ("check after a create", !created.is_empty()),
            ("check after a table was emptied", emptied),
        ]);
    };
    if kind == CallKind::Create && number == 0 {
        created.insert(name.to_vec(), false);
        return Vec::new();
    }
    let (Some(emptied), Some((old, new))) = (created.get_mut(name), made.tables(name)) else {
        return Vec::new();
    };
    let mut cases = vec![format!("{kind} in a created table: {number}")];
    if *emptied && old.keys() == 0 {
        cases.push(format!("{kind} in an emptied table: {number}"));
    }
    if number == 0 && made.call.changes() {
        cases.extend(of_change(old, new));
        *emptied |= new.keys() == 0;
    }
    cases
}

/// What a put or remove does to a created table.
fn of_change(old: &Table, new: &Table) -> Vec<String> {
    let (had, has) = (old.spans.len(), new.spans.len());
    let (were, are) = (old.levels(), new.levels());
    let is_empty = new.keys() == 0;
    held(&[
        ("created table split", has > had),
        ("created table split, with a new tower", are > were),
        (
            "value replaced in a created table",
            old.keys() == new.keys(),
        ),
        ("span of a created table unlinked", has < had),
        ("tower of a created table unlinked", are < were),
        ("created table emptied", is_empty),
        (
            "created table emptied by an unlinked span",
            is_empty && had > 1,
        ),
    ])
}
