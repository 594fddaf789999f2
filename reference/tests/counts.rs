//! The kept free count (document 02, T-06): which figures are accepted, and which calls write it.

mod common;

use common::{card, create, layout, pages_changed, put, read, table, write};
use reference::calls::Answer;
use reference::check::check;
use reference::compare::programs::{Outcome, Program, REFERENCE, TWIN};
use reference::explain::explain;
use reference::fuzz::damaged;
use reference::generate::Sample;
use reference::random::Random;
use reference::request::{Call, Request};
use reference::rule::Rule;
use std::collections::BTreeMap;

const PROGRAMS: [Program; 2] = [REFERENCE, TWIN];

/// The figure in bytes 28 to 31 of the superblock.
fn kept(image: &[u8]) -> u32 {
    let bytes = read(image, 1, 28, 4);
    u32::from_be_bytes(bytes.try_into().unwrap())
}

/// The image with this figure there.
fn with_count(image: &[u8], count: u32) -> Vec<u8> {
    let mut image = image.to_vec();
    write(&mut image, 1, 28, &count.to_be_bytes());
    image
}

/// Five free pages, and a table "t" with a key "k".
fn five_free() -> Vec<u8> {
    let mut image = card(12, 16);
    assert_eq!(create(&mut image, b"t"), 0);
    assert_eq!(put(&mut image, b"t", b"k", b"value"), 0);
    assert_eq!((layout(&image).free_pages(), kept(&image)), (5, 6));
    image
}

fn call_put(name: &[u8], key: &[u8], value: usize) -> Call {
    Call::Put {
        name: name.to_vec(),
        key: key.to_vec(),
        value: vec![7; value],
    }
}

fn call_remove(name: &[u8], key: &[u8]) -> Call {
    let (name, key) = (name.to_vec(), key.to_vec());
    Call::Remove { name, key }
}

fn call_create(name: &[u8]) -> Call {
    let name = name.to_vec();
    Call::Create { name }
}

fn call_get(name: &[u8], key: &[u8]) -> Call {
    let (name, key) = (name.to_vec(), key.to_vec());
    Call::Get { name, key }
}

fn call_next(name: &[u8], key: &[u8]) -> Call {
    let (name, key) = (name.to_vec(), key.to_vec());
    Call::Next { name, key }
}

/// Makes a call on a copy of the image with an answer buffer of this length.
fn run(program: &Program, image: &[u8], call: Call, answer_length: usize) -> Outcome {
    let request = Request {
        call,
        scratch_length: image.len(),
        answer_length,
        fill: 6,
    };
    program.run(image, &request).expect("all six calls")
}

/// Calls that are done with five pages free, each with the kept count after it where it changes the
/// image.
fn done_calls() -> [(Call, Option<u32>); 8] {
    [
        (Call::Check, None),
        (call_get(b"t", b"k"), None),
        (call_next(b"t", b""), None),
        (call_put(b"t", b"k", 5), Some(6)),
        (call_put(b"t", b"l", 2016), Some(4)),
        (call_put(b"t", b"l", 5500), Some(1)),
        (call_remove(b"t", b"k"), Some(6)),
        (call_create(b"u"), Some(3)),
    ]
}

/// "A well-formed image has 0 or the true figure there." "Every successful put, remove and create
/// writes it true, even if it was 0; check still gives F."
#[test]
fn calls_take_0_and_the_true_figure() {
    for count in [0, 6] {
        let image = with_count(&five_free(), count);
        for (call, after) in done_calls() {
            for program in PROGRAMS {
                let what = format!("{} by {}", call.kind(), program.name);
                let outcome = run(&program, &image, call.clone(), 9);
                assert_eq!(outcome.answer.number, 0, "{what}");
                match after {
                    Some(after) => assert_eq!(kept(&outcome.image), after, "{what}"),
                    None => assert!(outcome.image == image, "{what}"),
                }
                let free = if call == Call::Check { 5 } else { 0 };
                assert_eq!(outcome.answer.free, free, "{what}");
            }
        }
    }
}

/// Figures that are not 0 and not 6: F itself, one more, 6 in one half or one byte alone, in another
/// place, garbage and the largest.
const FALSE: [u32; 10] = [
    5,
    7,
    1,
    0x0001_0006,
    0xffff_0006,
    0x0100_0006,
    0x0006_0000,
    0x0600_0000,
    0xa5a5_a5a5,
    u32::MAX,
];

/// "Other figures, once unused bytes, are now refused": with 3, by each of the six calls.
#[test]
fn calls_refuse_every_other_figure() {
    let refused = Answer {
        number: 3,
        ..Answer::default()
    };
    for count in FALSE {
        let image = with_count(&five_free(), count);
        let broken = check(&image).expect_err("a false count");
        let broken: Vec<(Rule, u32)> = broken.iter().map(|one| (one.rule, one.page)).collect();
        assert_eq!(broken, [(Rule::KeptCount, 1)]);
        for (call, _) in done_calls() {
            for program in PROGRAMS {
                let outcome = run(&program, &image, call.clone(), 9);
                assert_eq!(outcome.answer, refused, "{} {count:x}", call.kind());
                assert!(outcome.image == image);
                assert!(outcome.scratch.iter().all(|byte| *byte == 0));
            }
        }
    }
}

/// On an image with no page free the true figure is 1; one less is 0, which says that it is not kept.
#[test]
fn a_full_card_keeps_1() {
    let mut full = card(8, 16);
    assert_eq!(create(&mut full, b"t"), 0);
    assert_eq!(put(&mut full, b"t", b"k", &[7; 1500]), 0);
    assert_eq!((layout(&full).free_pages(), kept(&full)), (0, 1));
    for count in [0, 1] {
        let image = with_count(&full, count);
        for program in PROGRAMS {
            for call in [call_put(b"t", b"k", 1500), call_put(b"t", b"l", 2)] {
                let outcome = run(&program, &image, call, 0);
                assert_eq!((outcome.answer.number, kept(&outcome.image)), (0, 1));
            }
            let outcome = run(&program, &image, call_remove(b"t", b"k"), 0);
            assert_eq!((outcome.answer.number, kept(&outcome.image)), (0, 2));
        }
    }
    for count in [2, 0x0001_0001, 0x0100_0000, u32::MAX] {
        assert!(check(&with_count(&full, count)).is_err(), "{count}");
    }
}

/// The last free page is taken, 2 to 1, and given back, 1 to 2, by put and by remove.
#[test]
fn the_last_free_page_is_counted() {
    for program in PROGRAMS {
        let mut image = card(8, 16);
        let mut after = |call: Call| {
            let outcome = run(&program, &image, call, 0);
            assert_eq!(outcome.answer.number, 0);
            image = outcome.image;
            kept(&image)
        };
        assert_eq!(after(call_create(b"t")), 2);
        assert_eq!(after(call_put(b"t", b"k", 10)), 2);
        assert_eq!(after(call_put(b"t", b"l", 1500)), 1);
        assert_eq!(after(call_put(b"t", b"l", 10)), 2);
        assert_eq!(after(call_put(b"t", b"k", 1500)), 1);
        assert_eq!(after(call_remove(b"t", b"l")), 1);
        assert_eq!(after(call_remove(b"t", b"k")), 2);
    }
}

/// "A value replaced by an equal one counts as changed": the put is a successful one.
#[test]
fn a_value_replaced_writes_it() {
    let image = with_count(&five_free(), 0);
    let span = table(&image, b"t").spans[0].page as usize;
    for program in PROGRAMS {
        let put = |value: &[u8]| Call::Put {
            name: b"t".to_vec(),
            key: b"k".to_vec(),
            value: value.to_vec(),
        };
        let other = run(&program, &image, put(b"other"), 0).image;
        assert_eq!(kept(&other), 6);
        assert_eq!(pages_changed(&image, &other), [1, span]);
        let equal = run(&program, &image, put(b"value"), 0).image;
        assert_eq!(kept(&equal), 6);
        assert_eq!(pages_changed(&image, &equal), [1]);
    }
}

/// Calls that are refused, each with the length of its answer buffer and its number.
fn refused_calls() -> [(Call, usize, u32); 18] {
    [
        (call_put(b"", b"k", 1), 0, 4),
        (call_put(b"t", b"", 1), 0, 4),
        (call_put(b"t", b"k", 65_536), 0, 5),
        (call_put(b"none", b"k", 1), 0, 6),
        (call_put(b"t", b"k", 8000), 0, 10),
        (call_put(b"t", b"l", 8000), 0, 10),
        (call_remove(b" ", b"k"), 0, 4),
        (call_remove(b"none", b"k"), 0, 6),
        (call_remove(b"t", b"l"), 0, 8),
        (call_create(b"\x7f"), 0, 4),
        (call_create(b"t"), 0, 7),
        (call_get(b"t", b""), 0, 4),
        (call_get(b"none", b"k"), 0, 6),
        (call_get(b"t", b"l"), 0, 8),
        (call_get(b"t", b"k"), 4, 9),
        (call_next(b"none", b""), 0, 6),
        (call_next(b"t", b"k"), 0, 8),
        (call_next(b"t", b""), 0, 9),
    ]
}

#[test]
fn a_refused_call_leaves_it() {
    for count in [0, 6] {
        let image = with_count(&five_free(), count);
        for (call, length, number) in refused_calls() {
            for program in PROGRAMS {
                let outcome = run(&program, &image, call.clone(), length);
                assert_eq!(outcome.answer.number, number, "{:?}", call.kind());
                assert!(outcome.image == image, "{:?} {number}", call.kind());
            }
        }
    }
    let mut crowded = five_free();
    assert_eq!(put(&mut crowded, b"t", b"k", &[7; 4000]), 0);
    let crowded = with_count(&crowded, 0);
    for program in PROGRAMS {
        let outcome = run(&program, &crowded, call_create(b"u"), 0);
        assert_eq!(outcome.answer.number, 10);
        assert!(outcome.image == crowded);
    }
}

/// A scratch that is too short is refused before the count is looked at.
#[test]
fn a_short_scratch_comes_before_a_false_count() {
    let image = with_count(&five_free(), u32::MAX);
    let request = Request {
        call: call_create(b"u"),
        scratch_length: image.len() - 1,
        answer_length: 0,
        fill: 6,
    };
    for program in PROGRAMS {
        let outcome = program.run(&image, &request).expect("a create");
        assert_eq!(outcome.answer.number, 2);
        assert!(outcome.image == image);
    }
}

/// The superblock's bytes from 32 on may hold anything, and stay.
#[test]
fn the_bytes_behind_it_are_unused() {
    let mut image = five_free();
    let garbage: Vec<u8> = (32..1024).map(|at| (at * 7) as u8).collect();
    write(&mut image, 1, 32, &garbage);
    for program in PROGRAMS {
        for (call, _) in done_calls() {
            let outcome = run(&program, &image, call, 9);
            assert_eq!(outcome.answer.number, 0);
            assert_eq!(read(&outcome.image, 1, 32, 992), garbage);
        }
    }
}

/// A count in more than one byte goes over a byte's end in both directions.
#[test]
fn a_count_of_two_bytes() {
    let mut image = card(257, 16);
    image.resize(262 * 1024, 0);
    write(&mut image, 1, 8, &(262 * 1024_u64).to_be_bytes());
    write(&mut image, 5, 8, &258_u32.to_be_bytes());
    write(&mut image, 258, 0, b"#frList#\0\0\0\0\0\0\0\x04");
    for page in 259..=262_u32 {
        let place = 16 + 4 * (page as usize - 259);
        write(&mut image, 258, place, &page.to_be_bytes());
        write(&mut image, page as usize, 0, b"~!FREE!~");
    }
    assert_eq!(layout(&image).free_pages(), 258);
    for program in PROGRAMS {
        let mut image = image.clone();
        let mut after = |call: Call| {
            image = run(&program, &image, call, 0).image;
            read(&image, 1, 28, 4).to_vec()
        };
        assert_eq!(after(call_create(b"t")), [0, 0, 1, 0]);
        assert_eq!(after(call_put(b"t", b"k", 1500)), [0, 0, 0, 255]);
        assert_eq!(after(call_remove(b"t", b"k")), [0, 0, 1, 0]);
    }
}

/// The ways in which a figure is false that has to be F plus 1: garbage where it is false in no other.
fn ways(free: usize, count: u32) -> Vec<&'static str> {
    let right = free as u32 + 1;
    let ways = [
        ("one more", count == right + 1),
        ("one less", count == right - 1),
        ("one more, with no page free", free == 0 && count == 2),
        ("one less, with one page free", free == 1 && count == 1),
        (
            "right in the low half",
            count != right && count & 0xffff == right,
        ),
        ("in the other byte order", count == right.swap_bytes()),
        ("the largest", count == u32::MAX),
    ];
    let held = ways.into_iter().filter(|(_, holds)| *holds);
    let held: Vec<&str> = held.map(|(way, _)| way).collect();
    match held.is_empty() {
        true => vec!["garbage"],
        false => held,
    }
}

/// Each damage breaks this rule alone and is refused with 3, whether the count was kept or not.
#[test]
fn counts_are_damaged_in_every_way() {
    let mut random = Random::new(43);
    let mut seen: BTreeMap<(&str, bool), u32> = BTreeMap::new();
    for _ in 0..1000 {
        let (sample, image) = damaged(&mut random, Rule::KeptCount).expect("an image to damage");
        let Sample { layout, .. } = sample;
        let broken = check(&image).expect_err("damaged");
        assert!(broken.iter().all(|one| one.rule == Rule::KeptCount));
        for program in PROGRAMS {
            assert_eq!(run(&program, &image, Call::Check, 0).answer.number, 3);
        }
        for way in ways(layout.free_pages(), kept(&image)) {
            *seen.entry((way, layout.count_kept)).or_default() += 1;
        }
    }
    println!("{seen:?}");
    assert_eq!(seen.len(), 2 * 8, "{seen:?}");
    assert!(seen.values().all(|count| *count >= 5), "{seen:?}");
}

#[test]
fn it_is_explained() {
    let image = five_free();
    let first = "pages 12, mounted 0, span size 16, 5 pages free, their count";
    assert!(explain(&image).starts_with(&format!("{first} kept\n")));
    let not_kept = explain(&with_count(&image, 0));
    assert!(not_kept.starts_with(&format!("{first} not kept\n")));
    let refused = explain(&with_count(&image, 5));
    let expected = "page 1 (superblock): KeptCount, the kept free count is 0, for not kept, \
                    or the number of free pages plus 1\n";
    assert_eq!(refused, expected);
}
