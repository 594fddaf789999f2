//! The verified library against the reference, with the feature `library`: numbers, lengths,
//! counts and every byte of image, scratch and answer buffer, for fixed seeds.
//!
//! Calls that the library has not yet are made by the reference alone. Run with `--nocapture` to
//! see what was compared.

#![cfg(feature = "library")]

mod common;

use common::{assert_covered, assert_reached, in_two};
use reference::compare::cases::Source;
use reference::compare::tally::{calls_table, images_table, Tally};
use reference::compare::{
    count_lists, create_lists, empty_lists, images, key_pairs, lengths, lists, long_lists,
    offset_lists, offset_pairs, present_lengths, put_lists, read_lists, remove_lists, Compare,
};
use reference::counting;
use reference::creating;
use reference::emptying;
use reference::library::LIBRARY;
use reference::offsets;
use reference::pairs::offsets as number_pairs;
use reference::pairs::{neighbours, PAIRS};
use reference::putting;
use reference::reading::LONGEST;
use reference::removing;
use reference::request::CallKind;
use reference::rule::Rule;

/// How many images are checked; every other one is damaged.
const IMAGES: u64 = 24_000;
/// How many lists of calls are run.
const LISTS: u64 = 4_000;
/// How many long lists of calls are run.
const LONG_LISTS: u64 = 60;
/// How many lists of gets and nexts are run.
const READ_LISTS: u64 = 20_000;
/// How many lists of puts are run.
const PUT_LISTS: u64 = 20_000;
/// How many lists of removes are run.
const REMOVE_LISTS: u64 = 20_000;
/// How many full cards are emptied.
const FULL_CARDS: u64 = 4_000;
/// How many lists are run that create tables and then use them.
const CREATE_LISTS: u64 = 50_000;
/// How many lists on offset tables are run.
const OFFSET_LISTS: u64 = 20_000;
/// How many lists about the free count are run.
const COUNT_LISTS: u64 = 20_000;
/// How many lengths keys have that are put and read, up to the greatest.
const PRESENT: u64 = 2_114;

/// Compares the library on `count` seeds from `first` on.
fn compared(first: u64, count: u64, compare: Compare) -> Tally {
    in_two(&LIBRARY, first, count, compare)
}

/// Calls of this kind were answered with each of these numbers, more often than `least` times.
fn assert_answered(tally: &Tally, kind: CallKind, numbers: &[u32], least: u64) {
    for &number in numbers {
        let calls = tally.calls.get(&(kind, number)).copied().unwrap_or(0);
        assert!(calls > least, "{kind} {number}: {calls}");
    }
}

#[test]
fn images_are_checked_alike() {
    let tally = compared(1, IMAGES, images);
    println!("{}", images_table(&tally));
    println!("{}", calls_table(&tally.calls));
    let damaged = |source: &Source| matches!(source, Source::Damaged(_));
    let of_damaged = tally.images.iter().filter(|((one, _), _)| damaged(one));
    let count: u64 = of_damaged.map(|(_, count)| count).sum();
    assert_eq!(count, IMAGES / 2);
    for &rule in Rule::ALL {
        let number = if rule == Rule::ImageLength { 1 } else { 3 };
        let refused = tally.images.get(&(Source::Damaged(rule), number));
        assert!(refused.is_some_and(|count| *count > 100), "{rule}");
    }
    for pages in [0, 4, 4096] {
        assert!(tally.sizes[&pages] > 10, "{pages} pages");
    }
    assert_reached(&tally, &counting::accepted());
}

#[test]
fn lists_of_calls_have_the_same_outcome() {
    let mut tally = compared(1, LISTS, lists);
    tally.add(compared(1, LONG_LISTS, long_lists));
    println!("{}", calls_table(&tally.calls));
    for kind in CallKind::ALL {
        assert_answered(&tally, kind, &[0], 500);
    }
}

#[test]
fn gets_and_nexts_have_the_same_outcome() {
    let tally = compared(1, READ_LISTS, read_lists);
    println!("{}", calls_table(&tally.calls));
    for kind in [CallKind::Get, CallKind::Next] {
        assert_answered(&tally, kind, &[0, 4, 6, 8, 9], 500);
    }
}

#[test]
fn puts_have_the_same_outcome() {
    let tally = compared(1, PUT_LISTS, put_lists);
    println!("{}", calls_table(&tally.calls));
    assert_answered(&tally, CallKind::Put, &[0, 2, 4, 5, 6, 10], 100);
    assert_reached(&tally, &putting::all());
}

#[test]
fn removes_have_the_same_outcome() {
    let tally = compared(1, REMOVE_LISTS, remove_lists);
    println!("{}", calls_table(&tally.calls));
    assert_answered(&tally, CallKind::Remove, &[0, 2, 4, 6, 8], 100);
    assert_reached(&tally, &removing::all());
}

#[test]
fn full_cards_are_emptied_alike() {
    let tally = compared(1, FULL_CARDS, empty_lists);
    println!("{}", calls_table(&tally.calls));
    let refused = tally.calls.keys().find(|(_, number)| *number != 0);
    assert_eq!(refused, None);
    assert_answered(&tally, CallKind::Remove, &[0], 10 * FULL_CARDS);
    assert_reached(&tally, &emptying::all());
}

#[test]
fn tables_created_and_used_have_the_same_outcome() {
    let tally = compared(1, CREATE_LISTS, create_lists);
    println!("{}", calls_table(&tally.calls));
    for kind in CallKind::ALL {
        assert_answered(&tally, kind, &[0], 10_000);
    }
    assert_answered(&tally, CallKind::Create, &[0, 2, 4, 7, 10], 1_000);
    assert_reached(&tally, &creating::all());
}

#[test]
fn calls_on_offset_tables_have_the_same_outcome() {
    let tally = compared(1, OFFSET_LISTS, offset_lists);
    println!("{}", calls_table(&tally.calls));
    for kind in [
        CallKind::Get,
        CallKind::Put,
        CallKind::Remove,
        CallKind::Next,
    ] {
        assert_answered(&tally, kind, &[0, 2, 4, 6], 200);
    }
    assert_reached(&tally, &offsets::all());
}

#[test]
fn counts_are_kept_alike() {
    let tally = compared(1, COUNT_LISTS, count_lists);
    println!("{}", calls_table(&tally.calls));
    assert_reached(&tally, &counting::all());
}

#[test]
fn names_and_keys_of_every_length_have_the_same_outcome() {
    let tally = compared(0, LONGEST as u64 + 1, lengths);
    println!("{}", calls_table(&tally.calls));
    // a get with each key over 65,535 bytes and with each name over 255
    let too_long = tally.calls[&(CallKind::Get, 4)];
    assert!(too_long >= LONGEST as u64 - 65_535 + LONGEST as u64 - 255);
}

#[test]
fn keys_of_many_lengths_are_found() {
    let tally = compared(0, PRESENT, present_lengths);
    println!("{}", calls_table(&tally.calls));
    // all that were put; of the answer buffers one in four is short
    assert!(tally.calls[&(CallKind::Get, 0)] > PRESENT);
    assert!(tally.calls[&(CallKind::Next, 0)] > 2 * PRESENT);
}

#[test]
fn pairs_of_keys_have_the_same_outcome() {
    let tally = compared(0, PAIRS, key_pairs);
    println!("{}", calls_table(&tally.calls));
    assert_answered(&tally, CallKind::Check, &[0, 3], PAIRS / 2);
    assert_answered(&tally, CallKind::Get, &[0, 8], PAIRS / 2);
    assert_answered(&tally, CallKind::Next, &[0], PAIRS);
    assert_reached(&tally, &neighbours::all());
    assert_covered(&tally);
}

#[test]
fn pairs_of_numbers_have_the_same_outcome() {
    let tally = compared(0, number_pairs::PAIRS, offset_pairs);
    println!("{}", calls_table(&tally.calls));
    assert_answered(&tally, CallKind::Check, &[0, 3], number_pairs::PAIRS / 2);
    assert_reached(&tally, &number_pairs::all());
}
