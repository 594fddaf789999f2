//! The twin against the reference, for fixed seeds; more by `reference compare twin SEED N`.

mod common;

use common::{assert_reached, in_two};
use reference::bench::cards::{self, Filling};
use reference::bench::cases::{call_cases, serial_cases};
use reference::check::check;
use reference::compare::cases::{case, Source};
use reference::compare::programs::{Program, BYTE_LOOP, REFERENCE, TWIN};
use reference::compare::{images, key_pairs, lists, long_lists, AIMED};
use reference::counting;
use reference::events;
use reference::generate::{self, Knobs};
use reference::page::write_u32;
use reference::random::Random;
use reference::request::{Call, CallKind, Request};
use reference::rule::Rule;
use reference::sort::{self, Sort};

#[test]
fn images_are_checked_alike() {
    let tally = images(&TWIN, 1, 4000).expect("no difference");
    let count = |source, number| tally.images.get(&(source, number)).copied().unwrap_or(0);
    for &rule in Rule::ALL {
        let number = if rule == Rule::ImageLength { 1 } else { 3 };
        assert!(count(Source::Damaged(rule), number) > 10, "{rule}");
    }
    assert!(count(Source::Sound, 0) > 1000 && count(Source::Sound, 2) > 50);
    assert!(count(Source::SetAnew, 0) > 20 && count(Source::SetAnew, 3) > 20);
    assert!(count(Source::OddLength, 1) > 20);
    assert!(count(Source::Noise, 3) > 20);
    assert!(tally.sizes.contains_key(&4) && tally.sizes.contains_key(&4096));
    assert_reached(&tally, &counting::accepted());
}

#[test]
fn lists_of_calls_have_the_same_outcome() {
    let tally = lists(&TWIN, 1, 400).expect("no difference");
    for kind in CallKind::ALL {
        let done = tally.calls.get(&(kind, 0)).copied().unwrap_or(0);
        assert!(done > 50, "{kind}: {done}");
    }
    for kind in [CallKind::Put, CallKind::Create] {
        assert!(tally.calls.contains_key(&(kind, 10)), "{kind}");
    }
}

#[test]
fn long_lists_of_calls_have_the_same_outcome() {
    let tally = long_lists(&TWIN, 1, 10).expect("no difference");
    assert_eq!(tally.calls.values().sum::<u64>(), 2500);
}

#[test]
fn an_image_to_check_is_the_same_each_time() {
    for seed in [1, 2, 3, 4] {
        assert!(case(seed) == case(seed));
    }
}

/// The number that both programs answer to a check with this image.
fn checked(image: &[u8]) -> u32 {
    let request = Request {
        call: Call::Check,
        scratch_length: image.len() + 5,
        answer_length: 0,
        fill: 9,
    };
    let run = |program: &Program| program.run(image, &request).expect("a check");
    let (expected, given) = (run(&REFERENCE), run(&TWIN));
    expected.same_as(&given).expect("no difference");
    given.answer.number
}

#[test]
fn images_of_the_benchmark() {
    for pages in [8, 100, 256, 1000] {
        for filling in Filling::ALL {
            let image = cards::sample(filling, pages, pages).image;
            assert_eq!(checked(&image), 0, "{} {pages}", filling.name());
        }
    }
    for pages in [100, 256] {
        for (name, image) in cards::hostile(pages) {
            assert_eq!(checked(&image), 3, "{name} {pages}");
        }
    }
}

#[test]
fn serial_numbers_of_the_benchmark() {
    for filling in Filling::ALL {
        let Filling::Serials(length) = filling else {
            continue;
        };
        let keys = [0, 1, 99, 100, 500_000].map(|place| filling.entry(place).key);
        assert!(keys.is_sorted() && keys.iter().all(|key| key.len() == length));
        let half = keys.map(|key| key[..length / 2].to_vec());
        assert!(half.iter().all(|one| *one == half[0]));
    }
    let cases = serial_cases();
    assert_eq!(cases.len(), 20);
    for case in cases {
        let outcome = BYTE_LOOP.run(&case.image, &case.request).expect("a call");
        assert_eq!(
            outcome.answer.number, 0,
            "{} {}",
            case.call, case.image_name
        );
    }
}

/// How many keys each row of the offset table adds.
const OFFSET_ROWS: [(&str, i64); 6] = [
    ("check", 0),
    ("get last key", 0),
    ("next of the empty key", 0),
    ("next of a key", 0),
    ("put, new key", 1),
    ("remove last key", -1),
];

#[test]
fn offset_table_of_the_benchmark() {
    let mut cases = call_cases();
    cases.retain(|case| case.image_name == Filling::Offsets.name());
    assert_eq!(cases.len(), 2 * OFFSET_ROWS.len());
    for (case, (row, more)) in cases.iter().zip(OFFSET_ROWS.repeat(2)) {
        assert_eq!(case.call, row);
        let outcome = TWIN.run(&case.image, &case.request).expect("a call");
        assert_eq!(outcome.answer.number, 0, "{row}");
        let layout = |image: &[u8]| check(image).expect("well-formed");
        let (before, after) = (layout(&case.image), layout(&outcome.image));
        let added = after.keys() as i64 - before.keys() as i64;
        assert_eq!(added, more, "{row}");
        let numbers = before.tables[0].1.entries();
        let numbers = numbers.map(|entry| sort::number(&entry.key).expect("a number"));
        let negative = numbers.filter(|number| *number < 0).count();
        assert!((before.keys() / 3..before.keys() * 2 / 3).contains(&negative));
    }
}

/// As many spans as fit, every other one with a tower, and calls near their end.
#[test]
fn many_spans_of_the_benchmark() {
    let mut cases = call_cases();
    cases.retain(|case| case.image_name == Filling::ManySpans.name());
    assert_eq!(cases.len(), 5);
    for case in &cases {
        let layout = check(&case.image).expect("well-formed");
        let table = &layout.tables[0].1;
        let spans = table.spans.len();
        assert!(spans > 2600 && table.levels() == 1 + spans / 2);
        let place = case
            .request
            .call
            .key()
            .map(|key| table.target(Sort::Bytes, key));
        assert!(place.is_none_or(|place| place == spans - 4));
        let outcome = TWIN.run(&case.image, &case.request).expect("a call");
        assert_eq!(outcome.answer.number, 0, "{}", case.call);
    }
}

/// Rows of the benchmark, each with an event that its call has to show.
const ROWS: [(&str, &str); 11] = [
    ("put, new key, split", "split"),
    (
        "put, new key near the end, split",
        "new tower between others",
    ),
    ("remove 65,535 bytes", "page given back"),
    ("remove, first span emptied", "first span emptied"),
    ("remove, span without tower emptied", "span unlinked"),
    ("remove, span with tower emptied", "tower unlinked"),
    (
        "remove, span unlinked",
        "tower of height 2 or more unlinked",
    ),
    (
        "remove, second span unlinked",
        "tower of height 2 or more unlinked",
    ),
    ("remove, last span unlinked", "tower unlinked"),
    ("remove, no page free", "page given back became block"),
    ("create, metaindex split", "split of the metaindex"),
];

#[test]
fn calls_of_the_benchmark_do_what_their_rows_say() {
    let cases = call_cases();
    for (row, event) in ROWS {
        let mut of_row = cases.iter().filter(|case| case.call == row);
        let case = of_row.next().expect("a case of every row");
        let outcome = REFERENCE.run(&case.image, &case.request).expect("a call");
        let layout = |image: &[u8]| check(image).expect("well-formed");
        let before = layout(&case.image);
        let events = events::events(&before, &layout(&outcome.image));
        assert!(events.contains(&event), "{row}");
        let is_full = before.free.is_empty();
        assert_eq!(row.contains("no page free"), is_full, "{row}");
        assert!(
            !row.contains("without tower") || !events.contains(&"tower unlinked"),
            "{row}"
        );
    }
}

/// Every number near the beginning of every page set to every page number, and beyond.
#[test]
fn every_field_of_small_images_set_anew() {
    let mut random = Random::new(29);
    let towers = Knobs {
        pages: 14..=16,
        ..Knobs::full_of_towers()
    };
    let mut accepted = 0;
    for knobs in [&Knobs::tiny(), &towers].repeat(4) {
        let sample = generate::sample(&mut random, knobs);
        let mut numbers: Vec<u32> = (0..=sample.layout.pages + 1).collect();
        numbers.extend([129, 253, 0x1_0000, 0xffff_ffff]);
        for page in 1..=sample.layout.pages {
            for offset in (2..48).step_by(2) {
                for &number in &numbers {
                    let mut changed = sample.image.clone();
                    write_u32(&mut changed, page, offset, number);
                    accepted += u32::from(checked(&changed) == 0);
                }
            }
        }
    }
    assert!(accepted > 500);
}

#[test]
fn aimed_calls_have_the_same_outcome() {
    for aimed in AIMED {
        let tally = in_two(&TWIN, 1, 10_000 / aimed.one_in, aimed.compare);
        assert_reached(&tally, &(aimed.cases)());
    }
}

#[test]
fn a_plain_loop_orders_keys_alike() {
    key_pairs(&BYTE_LOOP, 0, 10_000).expect("no difference");
}
