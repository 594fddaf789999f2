//! What a call on a table whose name has a "#" reaches.

use super::{Filling, OTHER_LENGTHS};
use crate::check::name_rules;
use crate::entries::{Entry, Place, MAX_LENGTH};
use crate::generate::HASH_NAMES;
use crate::layout::{Span, Table};
use crate::reached::{self, held, Made};
use crate::request::{Call, CallKind};
use crate::sort::{number, Sort};
use crate::towers::links;

/// The cases that are not made of a kind of call, a name, a number or a length.
const FIXED: [&str; 42] = [
    reached::GARBAGE,
    reached::COUNT_KEPT,
    reached::NO_COUNT,
    "bad key and value too long, table there: 4",
    "bad key and value too long, no such table: 4",
    "value too long, no such table: 5",
    "next from the empty key: both signs",
    "next from the empty key: negative keys only",
    "next from the empty key: positive keys only",
    "next from the empty key: no keys",
    "next from the empty key: behind an empty first span",
    "next over the sign change",
    "next from one negative key to another",
    "next from one positive key to another",
    "next to another span",
    "next by bytes would be another",
    "next none above, negative keys there",
    "get of a negative key",
    "get of a positive key",
    "get of a key of which the other sign is there",
    "key put below all",
    "key put above all",
    "key put between others",
    "key put into an empty table",
    "value replaced",
    "target by bytes would be another span",
    "place in the span by bytes would be another",
    "split between the signs",
    "split of negative keys",
    "split of positive keys",
    "split, with a new tower",
    "split of a span of 2",
    "split of a span of 3",
    "split of a span of 128",
    "remove of a negative key",
    "remove of a positive key",
    "span unlinked, with a tower",
    "span unlinked, without a tower",
    "first span emptied, others follow",
    "table emptied",
    "ordinary table: next from below 80 hex to above it",
    "ordinary table: a key that begins with #, not of four bytes",
];

/// The kinds of call that have a key.
const KEYED: [CallKind; 4] = [
    CallKind::Get,
    CallKind::Put,
    CallKind::Remove,
    CallKind::Next,
];

/// Numbers that have to be put.
const PUT: [i32; 5] = [i32::MIN, -1, 0, 1, i32::MAX];

/// All cases.
pub fn all() -> Vec<String> {
    let mut all: Vec<String> = FIXED.iter().map(|case| (*case).to_owned()).collect();
    for kind in KEYED {
        let lengths = OTHER_LENGTHS.into_iter().map(Some).chain([None]);
        let bad = lengths.filter(|length| *length != Some(0) || kind != CallKind::Next);
        all.extend(bad.flat_map(|length| [true, false].map(|there| refused(kind, length, there))));
        all.push(no_table(kind));
        all.extend(HASH_NAMES.iter().map(|name| done(kind, name)));
    }
    all.extend(HASH_NAMES.iter().map(|name| done(CallKind::Create, name)));
    all.extend(PUT.map(put));
    for kind in [CallKind::Get, CallKind::Put, CallKind::Next] {
        all.extend((0..=4).map(|bytes| cut(kind, bytes)));
    }
    all.extend(Filling::ALL.map(filled));
    all.extend([1, 2, 3, 5].map(ordinary));
    all.extend(links::all_new(Sort::Numbers));
    all.extend(links::all_unlinked(Sort::Numbers));
    all
}

/// The case of a key of another length, `None` for a longer one, under a name that begins with "#".
fn refused(kind: CallKind, length: Option<usize>, there: bool) -> String {
    let length = length.map_or("more".to_owned(), |length| length.to_string());
    let table = if there {
        "table there"
    } else {
        "no such table"
    };
    format!("{kind} with a key of {length} bytes, {table}: 4")
}

/// The case of a key of four bytes where there is no table.
fn no_table(kind: CallKind) -> String {
    format!("{kind} with a key of 4 bytes, no such table: 6")
}

/// The case of a done call on the table of this name.
fn done(kind: CallKind, name: &[u8]) -> String {
    format!("{kind} done, table {}", name.escape_ascii())
}

/// The case of a number that is put.
fn put(number: i32) -> String {
    format!("key {number} put")
}

/// The case of a key that is got, put or given as the next, of which so many bytes lie before a
/// page's end.
fn cut(kind: CallKind, bytes: usize) -> String {
    format!("{kind}: {bytes} bytes of the key before the page's end")
}

/// The case of a new table that was filled in this order.
fn filled(filling: Filling) -> String {
    format!("new table filled: {filling:?}")
}

/// The case of a key of this length in a table whose name does not begin with "#".
fn ordinary(length: usize) -> String {
    format!("ordinary table: a key of {length} bytes put")
}

/// What the put that fills a new table reaches.
pub fn of_filling(made: &Made<'_>, filling: Filling, count: usize) -> Vec<String> {
    let Call::Put { name, .. } = made.call else {
        return Vec::new();
    };
    let place = made
        .after
        .find(name)
        .filter(|_| Sort::of(name) == Sort::Numbers);
    let is_full = place.is_some_and(|place| made.after.tables[place].1.keys() == count);
    match is_full && made.number == 0 {
        true => vec![filled(filling)],
        false => Vec::new(),
    }
}

/// What a call reaches. One whose name is not legal is not counted: it is refused with 4 for that.
pub fn of_call(made: &Made<'_>) -> Vec<String> {
    let is_counted = |name: &&[u8]| name.contains(&b'#') && name_rules(name).is_empty();
    let Some(name) = made.call.name().filter(is_counted) else {
        return Vec::new();
    };
    let mut cases = Vec::new();
    if made.number == 0 && HASH_NAMES.contains(&name) {
        cases.push(done(made.call.kind(), name));
    }
    let Some(key) = made.call.key() else {
        return cases;
    };
    cases.extend(match (Sort::of(name), made.tables(name)) {
        (Sort::Numbers, None) => of_missing(made, key),
        (Sort::Numbers, Some(_)) if made.number == 4 => of_bad_key(made, key, true),
        (Sort::Numbers, Some((old, new))) => of_table(made, key, old, new),
        (Sort::Bytes, Some((old, _))) => of_ordinary(made, key, old),
        (Sort::Bytes, None) => Vec::new(),
    });
    cases
}

/// A call where there is no table.
fn of_missing(made: &Made<'_>, key: &[u8]) -> Vec<String> {
    match made.number {
        4 => of_bad_key(made, key, false),
        5 => vec!["value too long, no such table: 5".to_owned()],
        6 if key.len() == 4 => vec![no_table(made.call.kind())],
        _ => Vec::new(),
    }
}

/// A call that is refused for its key.
fn of_bad_key(made: &Made<'_>, key: &[u8], there: bool) -> Vec<String> {
    let length = OTHER_LENGTHS.contains(&key.len()).then_some(key.len());
    let mut cases = vec![refused(made.call.kind(), length, there)];
    let is_long = matches!(made.call, Call::Put { value, .. } if value.len() > MAX_LENGTH);
    cases.extend(held(&[
        (
            "bad key and value too long, table there: 4",
            is_long && there,
        ),
        (
            "bad key and value too long, no such table: 4",
            is_long && !there,
        ),
    ]));
    cases
}

/// A call on an offset table that is there, with a key that it may hold or next's empty one.
fn of_table(made: &Made<'_>, key: &[u8], old: &Table, new: &Table) -> Vec<String> {
    let is_done = made.number == 0;
    match made.call.kind() {
        CallKind::Next if key.is_empty() => of_first(made.number, old),
        CallKind::Next => of_next(made.number, old, key),
        CallKind::Get => of_get(made.number, old, key),
        CallKind::Put if is_done && old.keys() == new.keys() => vec!["value replaced".to_owned()],
        CallKind::Put if is_done => of_put(old, new, key),
        CallKind::Remove if is_done => of_remove(old, new, key),
        _ => Vec::new(),
    }
}

/// The numbers of a table, in the order of its spans.
fn numbers(table: &Table) -> Vec<i32> {
    let keys = table.entries().map(|entry| number(&entry.key));
    keys.map(|number| number.expect("four bytes")).collect()
}

/// A next from the empty key.
fn of_first(answer: u32, table: &Table) -> Vec<String> {
    let numbers = numbers(table);
    let has_negative = numbers.iter().any(|number| *number < 0);
    let has_positive = numbers.iter().any(|number| *number >= 0);
    let is_done = answer == 0;
    let is_behind = is_done && table.spans[0].entries.is_empty();
    held(&[
        (
            "next from the empty key: both signs",
            is_done && has_negative && has_positive,
        ),
        (
            "next from the empty key: negative keys only",
            is_done && !has_positive,
        ),
        (
            "next from the empty key: positive keys only",
            is_done && !has_negative,
        ),
        (
            "next from the empty key: no keys",
            answer == 8 && numbers.is_empty(),
        ),
        (
            "next from the empty key: behind an empty first span",
            is_behind,
        ),
    ])
}

/// A next from a number.
fn of_next(answer: u32, table: &Table, key: &[u8]) -> Vec<String> {
    let asked = number(key).unwrap_or_default();
    let Some(above) = table.above(Sort::Numbers, key) else {
        let has_negative = numbers(table).first().is_some_and(|number| *number < 0);
        let is_none = answer == 8 && asked >= 0 && has_negative;
        return held(&[("next none above, negative keys there", is_none)]);
    };
    let found = number(above).unwrap_or_default();
    let keys = table.entries().map(|entry| entry.key.as_slice());
    let target = |key| table.target(Sort::Numbers, key);
    let is_done = answer == 0;
    let mut cases = held(&[
        (
            "next over the sign change",
            is_done && asked < 0 && found >= 0,
        ),
        (
            "next from one negative key to another",
            is_done && found < 0,
        ),
        (
            "next from one positive key to another",
            is_done && asked >= 0,
        ),
        (
            "next to another span",
            is_done && target(key) != target(above),
        ),
        (
            "next by bytes would be another",
            is_done && Sort::Bytes.above(keys, key) != Some(above),
        ),
    ]);
    if is_done {
        cases.extend(of_cut(CallKind::Next, table, above));
    }
    cases
}

/// A get.
fn of_get(answer: u32, table: &Table, key: &[u8]) -> Vec<String> {
    let asked = number(key).unwrap_or_default();
    let other = asked ^ i32::MIN;
    let has_other = table.value(&other.to_be_bytes()).is_some();
    let mut cases = held(&[
        ("get of a negative key", answer == 0 && asked < 0),
        ("get of a positive key", answer == 0 && asked >= 0),
        (
            "get of a key of which the other sign is there",
            answer == 8 && has_other,
        ),
    ]);
    if answer == 0 {
        cases.extend(of_cut(CallKind::Get, table, key));
    }
    cases
}

/// A new key that was put.
fn of_put(old: &Table, new: &Table, key: &[u8]) -> Vec<String> {
    let number = number(key).unwrap_or_default();
    let numbers = numbers(old);
    let is_below = numbers.first().is_some_and(|first| number < *first);
    let is_above = numbers.last().is_some_and(|last| *last < number);
    let target = old.target(Sort::Numbers, key);
    let place = |sort: Sort| {
        let is_below = |entry: &Entry| sort.compare(&entry.key, key).is_lt();
        let entries = old.spans[target].entries.iter();
        entries.filter(|entry| is_below(entry)).count()
    };
    let mut cases = held(&[
        ("key put into an empty table", numbers.is_empty()),
        ("key put below all", is_below),
        ("key put above all", is_above),
        (
            "key put between others",
            !numbers.is_empty() && !is_below && !is_above,
        ),
        (
            "target by bytes would be another span",
            target != old.target(Sort::Bytes, key),
        ),
        (
            "place in the span by bytes would be another",
            place(Sort::Bytes) != place(Sort::Numbers),
        ),
    ]);
    cases.push(put(number));
    cases.extend(of_cut(CallKind::Put, new, key));
    if new.spans.len() > old.spans.len() {
        cases.extend(of_split(old, new, target));
    }
    cases
}

/// Where a page's end cuts a key that is there, or comes just before or behind it.
fn of_cut(kind: CallKind, table: &Table, key: &[u8]) -> Option<String> {
    before_page_end(Sort::Numbers, table, key).map(|bytes| cut(kind, bytes))
}

/// How many bytes of a key that is there lie before the end of a page, if it comes to that.
pub fn before_page_end(sort: Sort, table: &Table, key: &[u8]) -> Option<usize> {
    let span = &table.spans[table.target(sort, key)];
    let mut place = Place::START;
    for entry in &span.entries {
        let key_at = place.lengths().after(4);
        if entry.key == key {
            let left = key_at.left();
            return (left <= key.len()).then_some(left);
        }
        place = place.after_entry(entry.key.len(), entry.value.len());
    }
    None
}

/// A span that was split.
fn of_split(old: &Table, new: &Table, place: usize) -> Vec<String> {
    let border = |span: &Span, at: usize| number(&span.entries[at].key).unwrap_or_default();
    let (lower, upper) = (&new.spans[place], &new.spans[place + 1]);
    let lowest = border(lower, 0);
    let last = border(lower, lower.entries.len() - 1);
    let first = border(upper, 0);
    let highest = border(upper, upper.entries.len() - 1);
    let mut cases = held(&[
        ("split between the signs", last < 0 && first >= 0),
        ("split of negative keys", highest < 0),
        ("split of positive keys", lowest >= 0),
        ("split, with a new tower", upper.tower.is_some()),
    ]);
    cases.push(format!("split of a span of {}", old.span_size));
    cases.extend(links::of_new(Sort::Numbers, old, new, place + 1));
    cases
}

/// A key that was removed.
fn of_remove(old: &Table, new: &Table, key: &[u8]) -> Vec<String> {
    let number = number(key).unwrap_or_default();
    let target = old.target(Sort::Numbers, key);
    let is_unlinked = new.spans.len() < old.spans.len();
    let has_tower = old.spans[target].tower.is_some();
    let is_first_empty = target == 0 && new.spans[0].entries.is_empty();
    let mut cases = held(&[
        ("remove of a negative key", number < 0),
        ("remove of a positive key", number >= 0),
        ("span unlinked, with a tower", is_unlinked && has_tower),
        ("span unlinked, without a tower", is_unlinked && !has_tower),
        (
            "first span emptied, others follow",
            is_first_empty && new.spans.len() > 1,
        ),
        ("table emptied", new.keys() == 0),
        (
            "target by bytes would be another span",
            target != old.target(Sort::Bytes, key),
        ),
    ]);
    if is_unlinked {
        cases.extend(links::of_unlinked(Sort::Numbers, old, target));
    }
    cases
}

/// A call on a table whose name has a "#" only behind its first byte.
fn of_ordinary(made: &Made<'_>, key: &[u8], table: &Table) -> Vec<String> {
    if made.number != 0 {
        return Vec::new();
    }
    let is_next = made.call.kind() == CallKind::Next;
    let above = table.above(Sort::Bytes, key);
    let is_low = |key: &[u8]| key.first().is_some_and(|first| *first < 0x80);
    let mut cases = held(&[
        (
            "ordinary table: next from below 80 hex to above it",
            is_next && is_low(key) && above.is_some_and(|above| !is_low(above)),
        ),
        (
            "ordinary table: a key that begins with #, not of four bytes",
            key.first() == Some(&b'#') && key.len() != 4,
        ),
    ]);
    if made.call.kind() == CallKind::Put {
        cases.push(ordinary(key.len()));
    }
    cases
}
