//! What holds of random images, calls and damages, for fixed seeds.

mod common;

use common::{assert_reached, card, create, in_two, layout, put, remove};
use reference::audit::{audit, reach};
use reference::calls::Answer;
use reference::check::check;
use reference::compare::programs::REFERENCE;
use reference::compare::{count_lists, offset_lists, offset_pairs};
use reference::counting;
use reference::damage;
use reference::emptying;
use reference::encode;
use reference::entries::{self, Entry, Place};
use reference::events;
use reference::explain::explain;
use reference::fuzz::{accepted, damaged, fuzz, run_call, verdicts_agree};
use reference::generate::{self, Knobs, Sample, HASH_NAMES, NEAR_END};
use reference::layout::{Layout, Span, Table, Tower};
use reference::ledger::{tables_of, Ledger};
use reference::offsets::{self, before_page_end};
use reference::page::{kind_of, write_u32, Kind, MARKS};
use reference::pairs::offsets as number_pairs;
use reference::random::Random;
use reference::request::{Call, CallKind, Request};
use reference::rule::Rule;
use reference::script::{script, script_on, Script};
use reference::sort::{number, Sort};
use reference::theorems;
use reference::towers::agree;
use std::collections::{BTreeMap, BTreeSet};

#[test]
fn lists_of_calls_and_damaged_images() {
    let tally = fuzz(1000, 800).expect("no failure");
    for rule in Rule::ALL {
        let count = tally.damaged[rule];
        assert!(count.images >= 8, "{rule}");
        assert_eq!(count.images, count.reported, "{rule}");
    }
    for event in events::ALL {
        let count = tally.events.get(event).copied().unwrap_or(0);
        assert!(count > 0, "{event}");
    }
    for case in emptying::all() {
        assert!(tally.emptying.contains_key(&case), "{case}");
    }
    for case in agree::all() {
        assert!(tally.searches.contains_key(&case), "{case}");
    }
    let numbers: [(CallKind, &[u32]); 6] = [
        (CallKind::Check, &[0, 1, 2, 3]),
        (CallKind::Get, &[0, 1, 2, 3, 4, 6, 8, 9]),
        (CallKind::Put, &[0, 1, 2, 3, 4, 5, 6, 10]),
        (CallKind::Remove, &[0, 1, 2, 3, 4, 6, 8]),
        (CallKind::Next, &[0, 1, 2, 3, 4, 6, 8, 9]),
        (CallKind::Create, &[0, 1, 2, 3, 4, 7, 10]),
    ];
    for (kind, given) in numbers {
        for number in 0..=10 {
            let seen = tally.calls.contains_key(&(kind, number));
            // Only few damaged images have another length, so 1 may not come to every kind.
            let expected = given.contains(&number);
            assert!(seen == expected || number == 1, "{kind} {number}");
        }
    }
}

/// The lists on offset tables reach all their cases, and the ledger says what is answered.
#[test]
fn lists_on_offset_tables() {
    let tally = in_two(&REFERENCE, 1, 3000, offset_lists);
    assert_reached(&tally, &offsets::all());
}

/// The lists about the free count reach all their cases.
#[test]
fn lists_about_the_free_count() {
    let tally = in_two(&REFERENCE, 1, 5000, count_lists);
    assert_reached(&tally, &counting::all());
}

/// The pairs of numbers are all of those wanted, and the reference answers what was meant.
#[test]
fn pairs_of_numbers() {
    let numbers = number_pairs::numbers();
    assert_eq!(numbers.len(), number_pairs::NUMBERS);
    let tally = in_two(&REFERENCE, 0, number_pairs::PAIRS, offset_pairs);
    assert_reached(&tally, &number_pairs::all());
}

/// These rules can each be broken while every other rule holds.
#[test]
fn most_rules_are_broken_alone() {
    let with_others = [
        Rule::FirstSpanRange,
        Rule::FirstLevelRange,
        Rule::TableValue,
        Rule::TableRange,
        Rule::TowerCurrentZero,
        Rule::ListedRange,
    ];
    let mut random = Random::new(7);
    for &rule in Rule::ALL {
        let alone = (0..100).any(|_| {
            let (_, image) = damaged(&mut random, rule).expect("an image to damage");
            let broken = check(&image).expect_err("damaged");
            broken.iter().all(|one| one.rule == rule)
        });
        assert_eq!(alone, !with_others.contains(&rule), "{rule}");
    }
}

#[test]
fn check_ends_on_any_bytes() {
    let mut random = Random::new(3);
    for step in 0..400 {
        let length = match step % 4 {
            0 => random.below(9000),
            _ => 1024 * random.within(4..=40),
        };
        let mut bytes = random.bytes(length);
        for page in 1..=(length / 1024) as u32 {
            let mark = random.pick(&MARKS).1;
            let at = 1024 * (page as usize - 1);
            bytes[at..at + mark.len()].copy_from_slice(mark);
            for number in bytes[at + 8..at + 1020].chunks_mut(4) {
                let near = random.below(42) as u32;
                number.copy_from_slice(&near.to_be_bytes());
            }
        }
        assert!(check(&bytes).is_err());
        assert!(!explain(&bytes).is_empty());
    }
}

#[test]
fn bytes_set_anew_are_said_by_the_layout() {
    let mut random = Random::new(5);
    let mut count = [0, 0];
    for _ in 0..500 {
        let knobs = Knobs::tiny();
        let sample = generate::sample(&mut random, &knobs);
        let image = damage::set_bytes_anew(&mut random, &sample);
        let Ok(layout) = check(&image) else {
            count[0] += 1;
            continue;
        };
        count[1] += 1;
        accepted(&Sample { image, layout }).expect("accepted");
    }
    assert!(count[0] > 100 && count[1] > 50, "{count:?}");
}

/// Every number near the beginning of every page set to every page number, and beyond: the walk
/// and the rules over layouts always agree.
#[test]
fn every_field_of_small_images_set_anew() {
    let mut random = Random::new(17);
    let towers = Knobs {
        pages: 14..=16,
        ..Knobs::full_of_towers()
    };
    let mut accepted = 0;
    for step in 0..24 {
        let knobs = if step % 2 == 0 {
            Knobs::tiny()
        } else {
            towers.clone()
        };
        let Sample { image, layout } = generate::sample(&mut random, &knobs);
        let mut numbers: Vec<u32> = (0..=layout.pages + 1).collect();
        numbers.extend([129, 253, 0x1_0000, 0xffff_ffff]);
        for (page, _) in layout.owners() {
            for (offset, &number) in (2..48)
                .step_by(2)
                .flat_map(|offset| numbers.iter().map(move |number| (offset, number)))
            {
                let mut changed = image.clone();
                write_u32(&mut changed, page, offset, number);
                verdicts_agree(&changed).expect("one verdict");
                accepted += u32::from(changed != image && check(&changed).is_ok());
            }
        }
    }
    assert!(accepted > 1000);
}

#[test]
fn long_lists_of_calls() {
    let knobs = Knobs {
        pages: 60..=300,
        crowded: 0,
        long: 2,
        near_page_end: 5,
        span_sizes: vec![2, 3, 4],
        ..Knobs::mixed()
    };
    let mut random = Random::new(23);
    for _ in 0..12 {
        let Script {
            mut sample,
            requests,
        } = script_on(&mut random, &knobs, 250);
        let pages = u64::from(sample.layout.pages);
        let mut ledger = Ledger::new(pages, tables_of(&sample.layout));
        for request in &requests {
            run_call(&mut sample, &mut ledger, request).expect("as the ledger says");
        }
    }
}

/// The largest image, with thousands of towers as high as can be, is read and changed.
#[test]
fn the_largest_image_full_of_the_highest_towers() {
    let knobs = Knobs {
        pages: 4096..=4096,
        tables: 1..=1,
        spans: 4000..=4000,
        towers: 100,
        crowded: 100,
        long: 0,
        near_page_end: 0,
        ..Knobs::full_of_towers()
    };
    let mut random = Random::new(31);
    let mut largest = generate::sample(&mut random, &knobs);
    while largest
        .layout
        .tables
        .iter()
        .all(|(_, table)| table.levels() < 1500)
    {
        largest = generate::sample(&mut random, &knobs);
    }
    let table = largest.layout.table_mut(1);
    (table.head.max, table.head.height) = (252, 252);
    for tower in table
        .spans
        .iter_mut()
        .filter_map(|span| span.tower.as_mut())
    {
        (tower.max, tower.height) = (252, 252);
    }
    encode::layout(&mut largest.image, &largest.layout);
    accepted(&largest).expect("well-formed");
    let (name, table) = largest.layout.tables[0].clone();
    let last = &table.spans.last().expect("a span").entries;
    for entry in last {
        assert_eq!(remove(&mut largest.image, &name, &entry.key), 0);
    }
    assert_eq!(put(&mut largest.image, &name, &last[0].key, b"again"), 0);
}

/// Theorems have calls on offset tables often, done ones and refused ones.
#[test]
fn theorems_on_offset_tables() {
    let text = theorems::module(1, 300);
    let replies = text.lines().filter(|line| line.starts_with("reply"));
    let replies: Vec<&str> = replies.filter(|line| line.contains(" : ")).collect();
    assert_eq!(replies.len(), 300);
    let first = format!("(({} ∷", b'#');
    let of = |kind| format!("({kind} {first}");
    for (kind, least) in [("get", 5), ("next", 15), ("put", 30), ("remove", 30)] {
        let calls = replies.iter().filter(|line| line.contains(&of(kind)));
        assert!(calls.count() >= least, "{kind}");
    }
    let on_offsets = replies.iter().filter(|line| line.contains(&first));
    for (number, least) in [(0, 40), (4, 10), (6, 10), (8, 10)] {
        let number = format!("number = {number};");
        let answered = on_offsets.clone().filter(|line| line.contains(&number));
        assert!(answered.count() >= least, "{number}");
    }
}

#[test]
fn a_script_is_the_same_each_time() {
    for seed in [1, 2, 3] {
        let (one, other) = (script(seed, 15), script(seed, 15));
        assert!(one.sample.image == other.sample.image);
        assert_eq!(one.requests, other.requests);
        assert_eq!(one.requests.len(), 15);
    }
    assert_eq!(Random::new(0).next_u64(), 0xe220_a839_7b1d_cdaf);
}

/// A card to empty has no page free, and each of its keys is removed once.
#[test]
fn a_card_to_empty_is_full() {
    for seed in 0..300 {
        let (script, _) = emptying::script(seed);
        let Sample { image, layout } = &script.sample;
        accepted(&script.sample).expect("well-formed");
        assert!(layout.free.is_empty());
        assert_eq!(image[16..20], [0; 4]);
        let removes = script.requests.iter().filter_map(|request| {
            let name = request.call.name()?.to_vec();
            match &request.call {
                Call::Remove { key, .. } => Some((name, key.clone())),
                _ => None,
            }
        });
        let removes: Vec<_> = removes.collect();
        let tables = tables_of(layout);
        let there = |(name, key): &(Vec<u8>, Vec<u8>)| tables[name].contains_key(key);
        assert!(removes.iter().all(there));
        let once: BTreeSet<_> = removes.iter().collect();
        assert_eq!((once.len(), removes.len()), (layout.keys(), layout.keys()));
        assert!(emptying::nothing_left(layout).is_err());
    }
}

#[test]
fn the_walk_and_the_row_of_bytes_agree() {
    let mut random = Random::new(11);
    for _ in 0..3000 {
        let mut list = Vec::new();
        let mut place = Place::START;
        for _ in 0..random.below(9) {
            let key = random.within(1..=30);
            let value_at = place.after_entry(key, 0);
            let value = generate::length_to_page_end(&mut random, value_at);
            place = value_at.after(value);
            list.push((key, value));
        }
        let entry = |&(key, value): &(usize, usize)| Entry {
            key: vec![0; key],
            value: vec![0; value],
        };
        let made: Vec<Entry> = list.iter().map(entry).collect();
        assert_eq!(entries::continuations(&made), reach(&list));
    }
}

/// Where the lengths of each entry lie, in order, and the place after the last.
fn places(list: &[(usize, usize)]) -> (Vec<Place>, Place) {
    let mut place = Place::START;
    let mut at = Vec::new();
    for &(key, value) in list {
        at.push(place.lengths());
        place = place.after_entry(key, value);
    }
    (at, place)
}

/// "Taking an entry out never makes the others reach further, page breaks included" (document 02,
/// T-07): for every entry of every span, each of the others then lies no later, and together they
/// reach no more pages.
#[test]
fn an_entry_taken_out_makes_no_other_reach_further() {
    let mut random = Random::new(13);
    let (mut over_pages, mut fewer, mut gap_more) = (0, 0, 0);
    for _ in 0..1500 {
        let knobs = Knobs::any(&mut random);
        let layout = generate::layout(&mut random, &knobs);
        for span in layout.all_tables().flat_map(|table| &table.spans) {
            let entries = span.entries.iter();
            let all: Vec<(usize, usize)> = entries
                .map(|entry| (entry.key.len(), entry.value.len()))
                .collect();
            let (before, _) = places(&all);
            for out in 0..all.len() {
                let rest = [&all[..out], &all[out + 1..]].concat();
                let (after, end) = places(&rest);
                let others = [&before[..out], &before[out + 1..]].concat();
                assert!(after.iter().zip(&others).all(|(new, old)| new <= old));
                assert!(end.page <= span.continuations.len());
                assert_eq!(end.page, reach(&rest));
                over_pages += u32::from(end.page > 0);
                fewer += u32::from(end.page < span.continuations.len());
                gap_more += u32::from(gaps(&rest) > gaps(&all));
            }
        }
    }
    assert!(over_pages > 5000 && fewer > 3000 && gap_more > 500);
}

/// How many entries have their lengths moved to the next page by 1 to 3 bytes left.
fn gaps(list: &[(usize, usize)]) -> usize {
    let mut place = Place::START;
    let mut gaps = 0;
    for &(key, value) in list {
        gaps += usize::from((1..4).contains(&place.left()));
        place = place.after_entry(key, value);
    }
    gaps
}

/// The step from one entry to the next, for every two places next to one another: an entry that
/// begins earlier ends no later. With `PERIOD` bytes more it ends a page later at the same offset,
/// so the lengths tried stand for all.
#[test]
fn an_entry_that_begins_earlier_ends_no_later() {
    const PERIOD: usize = 1024 - 8;
    let on_page = |page, from: usize| (from..=1024).map(move |offset| Place { page, offset });
    let places: Vec<Place> = on_page(0, 20).chain(on_page(1, 8)).collect();
    for bytes in 0..=PERIOD {
        let ends = places.iter().map(|place| place.after_entry(1, bytes));
        let ends: Vec<Place> = ends.collect();
        assert!(ends.is_sorted(), "{bytes}");
        for (begin, end) in places.iter().zip(&ends) {
            assert!(begin < end);
            let later = begin.after_entry(1, bytes + PERIOD);
            assert_eq!((later.page, later.offset), (end.page + 1, end.offset));
        }
    }
}

/// An image with a table "t" of two spans, and a put that splits the second one.
fn before_split() -> (Sample, Request) {
    let mut image = card(20, 2);
    create(&mut image, b"t");
    for key in [b"a", b"b", b"c", b"d"] {
        put(&mut image, b"t", key, b"");
    }
    let request = Request {
        call: Call::Put {
            name: b"t".to_vec(),
            key: b"e".to_vec(),
            value: vec![1; 900],
        },
        scratch_length: image.len(),
        answer_length: 0,
        fill: 0,
    };
    let layout = layout(&image);
    (Sample { image, layout }, request)
}

/// The audit and the tables together determine every byte after a call.
#[test]
fn the_audit_sees_stray_bytes() {
    let (before, request) = before_split();
    let mut after = before.image.clone();
    let (mut scratch, mut buffer) = request.buffers();
    let answer = request.run(&mut after, &mut scratch, &mut buffer);
    let tables = tables_of(&layout(&after));
    let passes = |image: &[u8]| {
        let layout = audit(&before, &request, &answer, image);
        layout.is_ok_and(|layout| tables_of(&layout) == tables)
    };
    assert!(passes(&after));
    for at in 0..after.len() {
        after[at] ^= 0x10;
        assert!(!passes(&after), "byte {at}");
        after[at] ^= 0x10;
    }
    assert!(!passes(&before.image));
    write_u32(&mut after, 1, 28, 0);
    assert!(check(&after).is_ok() && !passes(&after), "count not kept");
    let refused = Answer {
        number: 10,
        ..Answer::default()
    };
    assert!(audit(&before, &request, &refused, &before.image).is_err());
}

/// Notes what an image has of the things the generator promises.
fn note(seen: &mut BTreeMap<String, u64>, sample: &Sample) {
    let layout = &sample.layout;
    let mut add = |what: &str, holds: bool| {
        *seen.entry(what.to_owned()).or_default() += u64::from(holds);
    };
    let counts: Vec<usize> = layout.free.iter().map(|block| block.listed.len()).collect();
    add("4 pages", layout.pages == 4);
    add("over 1000 pages", layout.pages > 1000);
    add("no table", layout.tables.is_empty());
    add("no block", counts.is_empty());
    add("several blocks", counts.len() > 1);
    add("first block empty", counts.first() == Some(&0));
    add("full block", counts.contains(&252));
    add("mounted 0", layout.mounted == 0);
    add("mounted 1", layout.mounted == 1);
    add("names in several spans", layout.meta.spans.len() > 1);
    add(
        "name of 255",
        layout.tables.iter().any(|(name, _)| name.len() == 255),
    );
    let unused_page_1 = &sample.image[32..1024];
    add("garbage", unused_page_1.iter().any(|byte| *byte != 0));
    note_count(&mut add, layout);
    for size in [2, 3, 128] {
        let what = format!("span size {size}");
        add(
            &what,
            layout.all_tables().any(|table| table.span_size == size),
        );
    }
    for table in layout.all_tables() {
        note_towers(&mut add, table);
        note_entries(&mut add, table);
    }
    for (name, table) in &layout.tables {
        note_name(&mut add, name);
        match Sort::of(name) {
            Sort::Bytes => add("ordinary table", true),
            Sort::Numbers => note_offsets(&mut add, table),
        }
    }
}

fn note_count(add: &mut impl FnMut(&str, bool), layout: &Layout) {
    let (free, is_kept) = (layout.free_pages(), layout.count_kept);
    add("count kept", is_kept);
    add("count not kept", !is_kept);
    add("count kept, no page free", is_kept && free == 0);
    add("count not kept, no page free", !is_kept && free == 0);
    add("count kept, in more than one byte", is_kept && free > 254);
}

fn note_name(add: &mut impl FnMut(&str, bool), name: &[u8]) {
    for of_offsets in HASH_NAMES {
        let what = format!("table {}", of_offsets.escape_ascii());
        add(&what, name == of_offsets);
    }
    add("another offset table", is_other(name) && name[0] == b'#');
    add(
        "# in another ordinary name",
        is_other(name) && is_inside(name),
    );
}

/// Whether the name is none of those that come often.
fn is_other(name: &[u8]) -> bool {
    !HASH_NAMES.contains(&name)
}

/// Whether "#" is in the name, but does not begin it.
fn is_inside(name: &[u8]) -> bool {
    name[0] != b'#' && name.contains(&b'#')
}

fn note_offsets(add: &mut impl FnMut(&str, bool), table: &Table) {
    let keys: Vec<&[u8]> = table.entries().map(|entry| &entry.key[..]).collect();
    let numbers: Vec<i32> = keys.iter().filter_map(|key| number(key)).collect();
    assert_eq!(numbers.len(), keys.len());
    let negative = numbers.iter().filter(|number| **number < 0).count();
    let has_both = (1..keys.len()).contains(&negative);
    for marked in [i32::MIN, -1, 0, 1, i32::MAX] {
        add(&format!("key {marked}"), numbers.contains(&marked));
    }
    add("offset table", true);
    add("offset table of both signs", has_both);
    add("negative keys only", negative == keys.len() && negative > 1);
    add("positive keys only", negative == 0 && keys.len() > 1);
    add("both orders agree", keys.len() > 1 && keys.is_sorted());
    add("the orders differ", !keys.is_sorted());
    add("over 100 offsets", keys.len() > 100);
    let is_run = numbers.len() > 9 && numbers.windows(2).all(|pair| pair[0] + 1 == pair[1]);
    add("a run over the sign change", is_run && has_both);
    note_offset_spans(add, table);
    for key in keys {
        if let Some(bytes) = before_page_end(Sort::Numbers, table, key) {
            add(&format!("{bytes} bytes before the page's end"), true);
        }
    }
}

fn note_offset_spans(add: &mut impl FnMut(&str, bool), table: &Table) {
    let is_border = |span: &Span| number(&span.entries[0].key) >= Some(0);
    let first = table.spans[1..].iter().position(is_border);
    let last_before = first.and_then(|place| table.spans[place].entries.last());
    let changes = last_before.is_some_and(|entry| number(&entry.key) < Some(0));
    add("the sign changes with the span", changes);
    let is_empty = table.spans[0].entries.is_empty() && table.spans.len() > 1;
    add("empty first span of offsets", is_empty);
    add("many towers over offsets", table.levels() > 10);
    for size in [2, 3, 128] {
        let what = format!("offset table of span size {size}");
        add(&what, table.span_size == size);
    }
}

fn note_towers(add: &mut impl FnMut(&str, bool), table: &Table) {
    let highest = table.towers().map(|tower| tower.height).max().unwrap_or(0);
    let bare = table.spans[1..].iter().any(|span| span.tower.is_none());
    let maxes = |tower: &Tower| tower.max != table.head.max;
    add("head higher than all towers", table.head.height > highest);
    add("head of height 0", table.head.height == 0);
    add("span without tower", bare);
    add("max height not the head's", table.towers().any(maxes));
    add("tower of 252", highest == 252);
    add("many towers", table.levels() > 20);
}

fn note_entries(add: &mut impl FnMut(&str, bool), table: &Table) {
    let first_empty = table.spans[0].entries.is_empty() && table.spans.len() > 1;
    add("empty first span before others", first_empty);
    let full = |span: &Span| span.entries.len() == usize::from(table.span_size);
    add("full span", table.spans.iter().any(full));
    for span in &table.spans {
        let mut place = Place::START;
        for entry in &span.entries {
            place = place.after_entry(entry.key.len(), entry.value.len());
            if place.left() < NEAR_END {
                add(&format!("{} bytes left", place.left()), true);
            }
            add("key of 65535", entry.key.len() == 65_535);
            add("value of 65535", entry.value.len() == 65_535);
            for byte in [0x00, 0x7f, 0x80, 0xff] {
                add(&format!("byte {byte:x}"), entry.key.contains(&byte));
            }
        }
    }
    let keys: Vec<&[u8]> = table.entries().map(|entry| &entry.key[..]).collect();
    add(
        "prefix",
        keys.windows(2).any(|pair| pair[1].starts_with(pair[0])),
    );
}

#[test]
fn the_generator_keeps_its_promises() {
    let mut seen = BTreeMap::new();
    let mut random = Random::new(2);
    for _ in 0..2500 {
        let knobs = Knobs::any(&mut random);
        let sample = generate::sample(&mut random, &knobs);
        accepted(&sample).expect("well-formed");
        note(&mut seen, &sample);
    }
    for bytes in 0..=4 {
        assert!(seen.contains_key(&format!("{bytes} bytes before the page's end")));
    }
    for bytes in 0..NEAR_END {
        assert!(seen.contains_key(&format!("{bytes} bytes left")));
    }
    assert!(seen["ordinary table"] > 2 * seen["offset table"]);
    assert!(seen["offset table"] > 500);
    for (what, count) in seen {
        assert!(count >= 3, "{what}: {count}");
    }
}

#[test]
fn every_page_of_a_sample_bears_its_mark() {
    let mut random = Random::new(8);
    for _ in 0..50 {
        let Sample { image, layout } = generate::sample(&mut random, &Knobs::mixed());
        for (page, kind) in layout.owners() {
            assert_eq!(kind_of(&image, page), Some(kind));
        }
        let free = layout
            .owners()
            .iter()
            .filter(|(_, kind)| *kind == Kind::Free)
            .count();
        assert_eq!(free + layout.free.len(), layout.free_pages());
    }
}
