//! The calls that are timed, and the images they are made on.

use super::cards::{self, Filling, NAME, OFFSETS_NAME};
use crate::entries::MAX_LENGTH;
use crate::layout::Table;
use crate::request::{Call, Request};

/// The sizes of the images, in pages.
const SIZES: [usize; 3] = [8, 256, 4096];

/// The fillings that are checked.
const FILLINGS: [Filling; 9] = [
    Filling::ManySmall,
    Filling::ManyTiny,
    Filling::SharedPrefixes,
    Filling::Offsets,
    Filling::FewLarge,
    Filling::LongKeys,
    Filling::Towers,
    Filling::Tables,
    Filling::Free,
];

/// One call on one image.
pub struct Case {
    pub call: &'static str,
    pub image_name: String,
    pub image: Vec<u8>,
    pub request: Request,
}

/// Checks of sound images, then of hostile ones.
pub fn check_cases() -> Vec<Case> {
    let mut cases = Vec::new();
    for filling in FILLINGS {
        for pages in SIZES.into_iter().filter(|pages| filling.fits(*pages)) {
            let image = cards::sample(filling, pages, pages).image;
            cases.push(case("check", filling.name(), image, Call::Check));
        }
    }
    for pages in SIZES.into_iter().skip(1) {
        for (name, image) in cards::hostile(pages) {
            cases.push(case("check", name.to_owned(), image, Call::Check));
        }
    }
    cases
}

fn case(call: &'static str, image_name: String, image: Vec<u8>, request: Call) -> Case {
    let request = Request {
        call: request,
        scratch_length: image.len(),
        answer_length: MAX_LENGTH,
        fill: 1,
    };
    Case {
        call,
        image_name,
        image,
        request,
    }
}

/// The other calls, on images with some free pages and on full ones, beside check alone. A table has many
/// spans only at the largest size.
pub fn call_cases() -> Vec<Case> {
    let mut cases = Vec::new();
    for pages in SIZES.into_iter().skip(1) {
        for (filling, free, calls) in CALLS {
            cases.extend(cases_on(filling, pages, free, calls));
        }
    }
    cases.extend(cases_on(Filling::ManySpans, 4096, 80, many_span_calls));
    cases
}

/// Checks of full images with serial numbers as keys, and gets of such keys.
pub fn serial_cases() -> Vec<Case> {
    let mut cases = Vec::new();
    let is_serials = |filling: &Filling| matches!(filling, Filling::Serials(_));
    for filling in Filling::ALL.into_iter().filter(is_serials) {
        for (pages, calls) in SERIAL_CALLS {
            cases.extend(cases_on(filling, pages, 0, calls));
        }
    }
    cases
}

/// These calls on an image of this many pages, about so many of them free.
fn cases_on(filling: Filling, pages: usize, free: usize, calls: CallsOn) -> Vec<Case> {
    let sample = cards::sample(filling, pages, pages - free);
    let calls = calls(filling.table(&sample.layout)).into_iter();
    calls
        .map(|(name, call)| case(name, filling.name(), sample.image.clone(), call))
        .collect()
}

/// Calls on the table that is filled.
type CallsOn = fn(&Table) -> Vec<(&'static str, Call)>;

/// What fills an image, about how many pages are free, and the calls to make.
const CALLS: [(Filling, usize, CallsOn); 10] = [
    (Filling::ManySmall, 80, small_calls),
    (Filling::Offsets, 80, offset_calls),
    (Filling::FullSpans, 80, split_calls),
    (Filling::SmallSpans, 80, small_span_calls),
    (Filling::SingleKeys, 80, emptying_calls),
    (Filling::FewLarge, 80, large_calls),
    (Filling::FewLarge, 0, crowded_calls),
    (Filling::Towers, 80, tower_calls),
    (Filling::Tables, 80, names_calls),
    (Filling::FullNames, 80, full_names_calls),
];

/// The calls on images of this many pages with serial numbers as keys.
const SERIAL_CALLS: [(usize, CallsOn); 2] = [(256, serial_calls), (4096, check_alone)];

fn get(name: &[u8], key: Vec<u8>) -> Call {
    let name = name.to_vec();
    Call::Get { name, key }
}

fn next(name: &[u8], key: Vec<u8>) -> Call {
    let name = name.to_vec();
    Call::Next { name, key }
}

fn put(name: &[u8], key: Vec<u8>, length: usize) -> Call {
    let (name, value) = (name.to_vec(), vec![0x77; length]);
    Call::Put { name, key, value }
}

fn remove(name: &[u8], key: Vec<u8>) -> Call {
    let name = name.to_vec();
    Call::Remove { name, key }
}

fn create(name: &[u8]) -> Call {
    let name = name.to_vec();
    Call::Create { name }
}

/// A key that is not there, after this one.
fn missing(place: usize) -> Vec<u8> {
    let mut key = cards::small_key(place);
    key.push(b'!');
    key
}

/// The last key of a table.
fn last_key(table: &Table) -> Vec<u8> {
    let last = table.entries().last();
    last.map_or(Vec::new(), |entry| entry.key.clone())
}

fn small_calls(table: &Table) -> Vec<(&'static str, Call)> {
    let keys = table.keys();
    let last = keys - 1;
    let key = cards::small_key;
    vec![
        ("check", Call::Check),
        ("get first key", get(NAME, key(0))),
        ("get last key", get(NAME, key(last))),
        ("get missing key", get(NAME, missing(keys / 2))),
        ("next of the empty key", next(NAME, Vec::new())),
        ("next of a key", next(NAME, key(keys / 2))),
        ("next of the last key", next(NAME, key(last))),
        ("put, value replaced", put(NAME, key(keys / 2), 4)),
        ("put, new key", put(NAME, missing(keys / 2), 4)),
        (
            "put, 65,535 bytes",
            put(NAME, missing(keys / 2), MAX_LENGTH),
        ),
        ("remove first key", remove(NAME, key(0))),
        ("remove last key", remove(NAME, key(last))),
        ("remove missing key", remove(NAME, missing(keys / 2))),
        ("create", create(b"another")),
        ("create, there already", create(NAME)),
    ]
}

/// Calls on an offset table. The numbers that are there are even, so the one after any is missing.
fn offset_calls(table: &Table) -> Vec<(&'static str, Call)> {
    let middle = table.entries().nth(table.keys() / 2);
    let key = middle.map_or(Vec::new(), |entry| entry.key.clone());
    let mut missing = key.clone();
    missing[3] |= 1;
    vec![
        ("check", Call::Check),
        ("get last key", get(OFFSETS_NAME, last_key(table))),
        ("next of the empty key", next(OFFSETS_NAME, Vec::new())),
        ("next of a key", next(OFFSETS_NAME, key)),
        ("put, new key", put(OFFSETS_NAME, missing, 4)),
        ("remove last key", remove(OFFSETS_NAME, last_key(table))),
    ]
}

fn check_alone(_: &Table) -> Vec<(&'static str, Call)> {
    vec![("check", Call::Check)]
}

/// Gets of keys of the span in the middle of the table.
fn serial_calls(table: &Table) -> Vec<(&'static str, Call)> {
    let entries = &table.spans[table.spans.len() / 2].entries;
    let (middle, last) = (entries.len() / 2, entries.len() - 1);
    vec![
        ("check", Call::Check),
        (
            "get, key in the middle of a span",
            get(NAME, entries[middle].key.clone()),
        ),
        (
            "get, last key of a span",
            get(NAME, entries[last].key.clone()),
        ),
    ]
}

fn split_calls(table: &Table) -> Vec<(&'static str, Call)> {
    let keys = table.keys();
    vec![
        ("put, new key, split", put(NAME, missing(keys / 2), 4)),
        (
            "put, 65,535 bytes, split",
            put(NAME, missing(keys / 2), MAX_LENGTH),
        ),
    ]
}

fn small_span_calls(table: &Table) -> Vec<(&'static str, Call)> {
    let half = table.keys() / 2;
    let key = cards::small_key(half);
    vec![
        ("check", Call::Check),
        ("get, key of a small span", get(NAME, key.clone())),
        ("next, key of a small span", next(NAME, key.clone())),
        ("put, new key of a small span", put(NAME, missing(half), 4)),
        ("remove, key of a small span", remove(NAME, key)),
    ]
}

/// Calls four spans before the end of the table, far from its first span.
fn many_span_calls(table: &Table) -> Vec<(&'static str, Call)> {
    let near_end = table.keys() - 8;
    let key = cards::small_key(near_end);
    vec![
        ("check", Call::Check),
        ("get, key near the end", get(NAME, key.clone())),
        ("next, key near the end", next(NAME, key.clone())),
        (
            "put, new key near the end, split",
            put(NAME, missing(near_end), 4),
        ),
        ("remove, key near the end", remove(NAME, key)),
    ]
}

/// Removes of the only keys of spans. The span at an even place has no tower; that at a place before
/// a power of two has one of the highest.
fn emptying_calls(table: &Table) -> Vec<(&'static str, Call)> {
    let key = cards::small_key;
    let half = table.keys() / 2;
    let bare = half - half % 2;
    let towered = half.next_power_of_two() / 2 - 1;
    vec![
        ("check", Call::Check),
        ("remove, first span emptied", remove(NAME, key(0))),
        (
            "remove, span without tower emptied",
            remove(NAME, key(bare)),
        ),
        (
            "remove, span with tower emptied",
            remove(NAME, key(towered)),
        ),
    ]
}

fn large_calls(table: &Table) -> Vec<(&'static str, Call)> {
    let key = cards::small_key;
    vec![
        ("check", Call::Check),
        ("get first key, 65,535 bytes", get(NAME, key(0))),
        ("get last key", get(NAME, last_key(table))),
        ("get missing key", get(NAME, missing(table.keys() / 2))),
        ("next of the first key", next(NAME, key(0))),
        ("put, 65,535 bytes replaced", put(NAME, key(0), MAX_LENGTH)),
        ("put, 65,535 bytes by 4", put(NAME, key(0), 4)),
        (
            "put, new key, 65,535 bytes",
            put(NAME, missing(0), MAX_LENGTH),
        ),
        ("remove 65,535 bytes", remove(NAME, key(0))),
        ("remove last key", remove(NAME, last_key(table))),
    ]
}

fn crowded_calls(_: &Table) -> Vec<(&'static str, Call)> {
    vec![
        ("put, no room", put(NAME, missing(0), MAX_LENGTH)),
        ("create, no room", create(b"another")),
        ("remove, no page free", remove(NAME, cards::small_key(0))),
    ]
}

/// Calls on spans of one key, each with a tower of all levels: in the second span, the first with such a
/// tower, in the middle, and at the end.
fn tower_calls(table: &Table) -> Vec<(&'static str, Call)> {
    let keys = table.keys();
    let last = keys - 1;
    let key = cards::small_key;
    vec![
        ("check", Call::Check),
        ("get second key", get(NAME, key(1))),
        ("get last key", get(NAME, key(last))),
        ("next of the second key", next(NAME, key(1))),
        ("next, key near the end", next(NAME, key(last - 1))),
        ("put, new key near the beginning", put(NAME, missing(1), 4)),
        ("put, new key, no split", put(NAME, missing(keys / 2), 4)),
        ("put, new key at the end", put(NAME, missing(last), 4)),
        ("remove, second span unlinked", remove(NAME, key(1))),
        ("remove, span unlinked", remove(NAME, key(last / 2))),
        ("remove, last span unlinked", remove(NAME, key(last))),
    ]
}

fn names_calls(meta: &Table) -> Vec<(&'static str, Call)> {
    vec![
        ("check", Call::Check),
        ("create", create(&missing(meta.keys() / 2))),
        ("create, there already", create(&last_key(meta))),
    ]
}

fn full_names_calls(meta: &Table) -> Vec<(&'static str, Call)> {
    let name = missing(meta.keys() / 2);
    vec![
        ("check", Call::Check),
        ("create, metaindex split", create(&name)),
    ]
}
