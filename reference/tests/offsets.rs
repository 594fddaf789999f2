//! Offset tables (document 02, T-05): the order of their keys, and the images that are accepted and
//! refused for it.

mod common;

use common::{card, create, get, layout, next, put, read, remove, table};
use reference::calls;
use reference::check::{check, walk};
use reference::encode;
use reference::fuzz::damaged;
use reference::layout::{Layout, Span};
use reference::numbers::{key, MARKED};
use reference::random::Random;
use reference::rule::Rule;
use reference::sort::{number, Sort};
use std::collections::BTreeMap;

/// The name of the table.
const SYNC: &[u8] = b"#sync";

/// An image with a table of this name, in whose spans so many keys fit, and these numbers put in turn.
fn filled(name: &[u8], span_size: u8, numbers: &[i32]) -> Vec<u8> {
    let mut image = card(60, span_size);
    assert_eq!(create(&mut image, name), 0);
    for &number in numbers {
        assert_eq!(put(&mut image, name, &key(number), &key(number)), 0);
    }
    image
}

/// The image with other keys in its table, and as many of them.
fn with_keys(image: &[u8], keys: &[Vec<u8>]) -> Vec<u8> {
    let mut image = image.to_vec();
    let mut layout = layout(&image);
    let spans = layout.table_mut(1).spans.iter_mut();
    let mut entries: Vec<_> = spans.flat_map(|span| &mut span.entries).collect();
    assert_eq!(entries.len(), keys.len());
    for (entry, key) in entries.iter_mut().zip(keys) {
        entry.key.clone_from(key);
    }
    encode::layout(&mut image, &layout);
    image
}

/// The image with these numbers as the keys of its table, in this order.
fn with_numbers(image: &[u8], numbers: &[i32]) -> Vec<u8> {
    let keys: Vec<Vec<u8>> = numbers.iter().map(|&number| key(number)).collect();
    with_keys(image, &keys)
}

/// The rules that an image breaks.
fn broken(image: &[u8]) -> Vec<Rule> {
    let broken = check(image).err().unwrap_or_default();
    broken.iter().map(|one| one.rule).collect()
}

/// The keys that next gives, from the empty key on.
fn walked(image: &[u8], name: &[u8]) -> Vec<Vec<u8>> {
    let mut keys = Vec::new();
    let mut last = Vec::new();
    while let (0, key) = next(image, name, &last) {
        last.clone_from(&key);
        keys.push(key);
    }
    keys
}

#[test]
fn names_that_begin_with_the_sign() {
    for name in [&b"#"[..], b"##", b"#a", b"#sync", b"#\x21"] {
        assert_eq!(Sort::of(name), Sort::Numbers);
    }
    for name in [&b""[..], b"a#", b"!#", b"\"", b"$", b"sync", b"a#a"] {
        assert_eq!(Sort::of(name), Sort::Bytes);
    }
}

#[test]
fn keys_are_the_numbers_of_four_bytes() {
    let bytes: [(&[u8], i32); 6] = [
        (&[0x80, 0, 0, 0], -2_147_483_648),
        (&[0xff, 0xff, 0xff, 0xff], -1),
        (&[0, 0, 0, 0], 0),
        (&[0, 0, 0, 1], 1),
        (&[0, 0, 1, 0], 256),
        (&[0x7f, 0xff, 0xff, 0xff], 2_147_483_647),
    ];
    for (bytes, expected) in bytes {
        assert_eq!(number(bytes), Some(expected));
        assert_eq!(key(expected), bytes);
        assert!(Sort::Numbers.allows(bytes));
    }
    for length in [0, 1, 2, 3, 5, 8, 65_535] {
        assert!(!Sort::Numbers.allows(&vec![0; length]));
        assert_eq!(Sort::Bytes.allows(&vec![0; length]), length > 0);
    }
    assert!(!Sort::Bytes.allows(&vec![0; 65_536]));
}

/// Both orders agree exactly where both numbers have one sign: "byte order lists -1 after
/// 2147483647".
#[test]
fn numbers_sort_from_the_least_up() {
    assert!(MARKED.is_sorted());
    for one in MARKED {
        for other in MARKED {
            let (as_bytes, by_number) = (key(one), one.cmp(&other));
            assert_eq!(Sort::Numbers.compare(&as_bytes, &key(other)), by_number);
            let agree = Sort::Bytes.compare(&as_bytes, &key(other)) == by_number;
            assert_eq!(agree, (one < 0) == (other < 0));
        }
        assert!(Sort::Numbers.compare(b"", &key(one)).is_lt());
    }
    assert!(Sort::Bytes.compare(&key(2_147_483_647), &key(-1)).is_lt());
}

#[test]
fn next_goes_from_the_least_number_up() {
    let rising: Vec<Vec<u8>> = MARKED.map(key).to_vec();
    let mut by_bytes = rising.clone();
    by_bytes.sort();
    let mut falling = MARKED;
    falling.reverse();
    let mut by_signs = MARKED;
    by_signs.sort_by_key(|number| number.unsigned_abs());
    for numbers in [MARKED, falling, by_signs] {
        for span_size in [2, 3, 16] {
            assert_eq!(walked(&filled(SYNC, span_size, &numbers), SYNC), rising);
            assert_eq!(walked(&filled(b"#", span_size, &numbers), b"#"), rising);
            assert_eq!(walked(&filled(b"a#", span_size, &numbers), b"a#"), by_bytes);
        }
    }
}

#[test]
fn next_from_the_empty_key_begins_at_the_least() {
    for (numbers, least) in [(&[5, -7, 0][..], -7), (&[-1, -2], -2), (&[9, 8], 8)] {
        let image = filled(SYNC, 2, numbers);
        assert_eq!(next(&image, SYNC, b""), (0, key(least)));
    }
    assert_eq!(next(&filled(SYNC, 2, &[]), SYNC, b""), (8, Vec::new()));
}

#[test]
fn next_of_numbers_that_are_not_there() {
    let image = filled(SYNC, 2, &[-300, -5, 5, 300]);
    let above = |number| next(&image, SYNC, &key(number));
    assert_eq!(above(i32::MIN), (0, key(-300)));
    assert_eq!(above(-6), (0, key(-5)));
    assert_eq!(above(-1), (0, key(5)));
    assert_eq!(above(0), (0, key(5)));
    assert_eq!(above(299), (0, key(300)));
    assert_eq!(above(300), (8, Vec::new()));
    assert_eq!(above(i32::MAX), (8, Vec::new()));
}

/// Spans of two keys, of which the first begins at the least number: -1 belongs to the span of -5, by
/// bytes it would come last.
#[test]
fn the_target_span_goes_by_numbers() {
    let mut image = filled(SYNC, 2, &[-9, -7, -5, -3, 3, 5]);
    let first = |image: &[u8]| -> Vec<i32> {
        let spans = table(image, SYNC).spans;
        let keys = spans.iter().map(|span| number(&span.entries[0].key));
        keys.map(|number| number.expect("four bytes")).collect()
    };
    assert_eq!(first(&image), [-9, -5, 3]);
    let made = table(&image, SYNC);
    assert_eq!(made.target(Sort::Numbers, &key(-1)), 1);
    assert_eq!(made.target(Sort::Numbers, &key(i32::MIN)), 0);
    assert_eq!(made.target(Sort::Numbers, &key(i32::MAX)), 2);
    assert_eq!(put(&mut image, SYNC, &key(-1), b""), 0);
    assert_eq!(first(&image), [-9, -5, -1, 3]);
    assert_eq!(get(&image, SYNC, &key(-1)), (0, Vec::new()));
    for number in [-5, -3] {
        assert_eq!(remove(&mut image, SYNC, &key(number)), 0);
    }
    assert_eq!(first(&image), [-9, -1, 3]);
}

#[test]
fn the_metaindex_sorts_names_by_bytes() {
    let mut image = card(60, 2);
    let mut names = [
        &b"a#"[..],
        b"#sync",
        b"#\x7e",
        b"#",
        b"!",
        b"##",
        b"#abcdefgh",
    ];
    for name in names {
        assert_eq!(create(&mut image, name), 0);
    }
    names.sort();
    let layout = layout(&image);
    let made: Vec<&[u8]> = layout.tables.iter().map(|(name, _)| &name[..]).collect();
    assert_eq!(made, names);
}

#[test]
fn a_table_in_byte_order_is_refused() {
    let rising = [-7, -1, 0, 6, 7];
    for span_size in [2, 3, 16] {
        let image = filled(SYNC, span_size, &rising);
        assert_eq!(broken(&image), []);
        let by_bytes = with_numbers(&image, &[0, 6, 7, -7, -1]);
        assert_eq!(broken(&by_bytes), [Rule::OffsetsRising]);
        let falling = with_numbers(&image, &[7, 6, 0, -1, -7]);
        assert!(broken(&falling).contains(&Rule::OffsetsRising));
    }
}

#[test]
fn a_table_of_one_sign_is_accepted_in_byte_order() {
    for numbers in [[0, 1, 255, 256, i32::MAX], [i32::MIN, -256, -255, -2, -1]] {
        let mut keys = numbers.map(key);
        keys.sort();
        let image = filled(SYNC, 2, &[1, 2, 3, 4, 5]);
        assert_eq!(broken(&with_keys(&image, &keys)), []);
    }
}

#[test]
fn an_ordinary_table_sorts_by_bytes() {
    let image = filled(b"a#", 2, &[-7, -1, 0, 6, 7]);
    assert_eq!(broken(&image), []);
    let by_numbers = with_numbers(&image, &[-7, -1, 0, 6, 7]);
    assert_eq!(broken(&by_numbers), [Rule::KeysRising]);
}

/// Three spans of two keys each: equal keys, and keys the wrong way round, within a span and over its
/// border.
#[test]
fn neighbours_rise_within_a_span_and_over_its_border() {
    let rising = [-30, -20, -10, 10, 20, 30];
    let image = with_numbers(&filled(SYNC, 3, &[1, 2, 3, 4, 5, 6]), &rising);
    let sizes = table(&image, SYNC).spans;
    let sizes: Vec<usize> = sizes.iter().map(|span| span.entries.len()).collect();
    assert_eq!(sizes, [2, 2, 2]);
    assert_eq!(broken(&image), []);
    for at in 1..rising.len() {
        let mut equal = rising;
        equal[at] = equal[at - 1];
        assert_eq!(broken(&with_numbers(&image, &equal)), [Rule::OffsetsRising]);
        let mut swapped = rising;
        swapped.swap(at - 1, at);
        let found = broken(&with_numbers(&image, &swapped));
        assert!(found.iter().all(|rule| *rule == Rule::OffsetsRising));
        assert!(!found.is_empty(), "{at}");
    }
}

/// Also where the keys are in the order of their bytes.
#[test]
fn a_key_of_another_length_is_refused() {
    let image = filled(SYNC, 16, &[1, 2, 3]);
    for length in [0, 1, 2, 3, 5, 6, 8, 200] {
        for at in 0..3 {
            let mut keys = [1, 2, 3].map(key);
            keys[at].resize(length, 0);
            assert_eq!(broken(&with_keys(&image, &keys)), [Rule::OffsetLength]);
        }
        let keys = [1, 2, 3].map(|first| vec![first; length]);
        assert_eq!(broken(&with_keys(&image, &keys)), [Rule::OffsetLength]);
    }
}

/// The key of the second entry is cut by the page's end after each of its bytes, or comes just before
/// or behind it.
#[test]
fn a_key_over_the_end_of_a_page() {
    for before in 0..=4 {
        let mut image = card(60, 16);
        assert_eq!(create(&mut image, SYNC), 0);
        let filling = 1024 - 20 - 8 - 4 - before;
        assert_eq!(put(&mut image, SYNC, &key(-8), &vec![7; filling]), 0);
        for number in [4, -4] {
            assert_eq!(put(&mut image, SYNC, &key(number), b"offset"), 0);
        }
        let span = table(&image, SYNC).spans[0].clone();
        let cut = key(-4);
        assert_eq!(
            read(&image, span.page, 1024 - before, before),
            &cut[..before]
        );
        let rest = read(&image, span.continuations[0], 8, 4 - before);
        assert_eq!(rest, &cut[before..]);
        let keys: Vec<Vec<u8>> = [-8, -4, 4].map(key).to_vec();
        assert_eq!(walked(&image, SYNC), keys);
        assert_eq!(get(&image, SYNC, &key(-4)), (0, b"offset".to_vec()));
        let wrong = with_numbers(&image, &[-8, 4, -4]);
        assert_eq!(broken(&wrong), [Rule::OffsetsRising]);
    }
}

/// The keys of each offset table of a layout, by spans.
fn offset_spans(layout: &Layout) -> Vec<Vec<Vec<&[u8]>>> {
    let tables = layout.sorted_tables();
    let offsets = tables.filter(|(sort, _)| *sort == Sort::Numbers);
    offsets
        .map(|(_, table)| table.spans.iter().map(keys_of).collect())
        .collect()
}

fn keys_of(span: &Span) -> Vec<&[u8]> {
    span.entries.iter().map(|entry| &entry.key[..]).collect()
}

/// In what the keys of an offset table do not rise.
fn of_order(spans: &[Vec<&[u8]>]) -> Vec<&'static str> {
    let keys: Vec<&[u8]> = spans.concat();
    let falls = |pair: &[&[u8]]| Sort::Numbers.compare(pair[0], pair[1]).is_ge();
    let within = spans.iter().any(|span| span.windows(2).any(falls));
    let all = keys.windows(2).any(falls);
    let mut cases = Vec::new();
    let mut note = |case, holds: bool| cases.extend(holds.then_some(case));
    note("in the order of bytes", all && keys.is_sorted());
    note(
        "equal neighbours",
        keys.windows(2).any(|pair| pair[0] == pair[1]),
    );
    note("within a span", within);
    note("only over a border of spans", all && !within);
    cases
}

/// What lengths the keys of an offset table have that it may not hold.
fn of_lengths(spans: &[Vec<&[u8]>]) -> Vec<&'static str> {
    let keys: Vec<&[u8]> = spans.concat();
    let bad = keys.iter().filter(|key| !Sort::Numbers.allows(key));
    let lengths: Vec<usize> = bad.map(|key| key.len()).collect();
    let mut cases = Vec::new();
    let mut note = |case, holds: bool| cases.extend(holds.then_some(case));
    for (case, length) in [
        ("length 0", 0),
        ("length 1", 1),
        ("length 2", 2),
        ("length 3", 3),
        ("length 5", 5),
    ] {
        note(case, lengths.contains(&length));
    }
    note(
        "length over 1000",
        lengths.iter().any(|length| *length > 1000),
    );
    note("one key", lengths.len() == 1 && keys.len() > 1);
    note("all keys", lengths.len() == keys.len() && keys.len() > 1);
    let rise = keys.windows(2).all(|pair| pair[0] < pair[1]);
    note("in the order of bytes", !lengths.is_empty() && rise);
    cases
}

/// Damages of this rule are refused for it alone, and so many cases come among them.
fn assert_damages(rule: Rule, kinds: usize, cases: fn(&[Vec<&[u8]>]) -> Vec<&'static str>) {
    let mut random = Random::new(41);
    let mut seen: BTreeMap<&str, u32> = BTreeMap::new();
    for _ in 0..400 {
        let (_, image) = damaged(&mut random, rule).expect("an image to damage");
        assert!(broken(&image).iter().all(|one| *one == rule));
        assert_eq!(calls::check(&image, &mut vec![0; image.len()]).number, 3);
        let (layout, _) = walk(&image).expect("a right length");
        for case in offset_spans(&layout).iter().flat_map(|spans| cases(spans)) {
            *seen.entry(case).or_default() += 1;
        }
    }
    assert_eq!(seen.len(), kinds, "{seen:?}");
    assert!(seen.values().all(|count| *count >= 5), "{seen:?}");
}

#[test]
fn offsets_are_damaged_in_every_way() {
    assert_damages(Rule::OffsetsRising, 4, of_order);
    assert_damages(Rule::OffsetLength, 9, of_lengths);
}
