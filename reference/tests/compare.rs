//! A program that is wrong in one thing is found out.

use reference::calls::Answer;
use reference::check::check;
use reference::compare::programs::{reading_twin, Program, RemoveCall, TWIN};
use reference::compare::{
    create_lists, empty_lists, images, key_pairs, lengths, lists, present_lengths, put_lists,
    read_lists, remove_lists, Compare,
};
use reference::entries::MAX_LENGTH;
use reference::page::{bytes_mut, listed_number, tower, write_u16, write_u32};
use reference::sort::Sort;
use reference::twin::{self, Order, Slices};
use std::cmp::Ordering;

/// What is found on some images and lists.
fn found(program: &Program) -> Result<(), String> {
    let outcome = images(program, 1, 300).and_then(|_| lists(program, 1, 60));
    outcome.map(|_| ()).map_err(|failure| failure.what)
}

/// What is found on some lists of gets and nexts.
fn found_reading(program: &Program) -> Result<(), String> {
    let outcome = read_lists(program, 1, 300)
        .and_then(|_| lengths(program, MAX_LENGTH as u64 - 20, 40))
        .and_then(|_| present_lengths(program, 0, 30));
    outcome.map(|_| ()).map_err(|failure| failure.what)
}

fn assert_found(program: Program, what: &str) {
    let found = found(&program).expect_err("a difference");
    assert!(found.contains(what), "{found}");
}

#[test]
fn the_twin_is_right() {
    found(&TWIN).expect("no difference");
    found_reading(&TWIN).expect("no difference");
}

#[test]
fn a_program_without_some_calls_is_compared_in_the_others() {
    let some = Program {
        get: None,
        put: None,
        create: None,
        ..TWIN
    };
    found(&some).expect("no difference");
    let wrong = Program {
        remove: Some(|_, _, _, _| Answer::default()),
        ..some
    };
    found(&wrong).expect_err("a difference");
}

#[test]
fn a_wrong_count() {
    let check = |image: &[u8], scratch: &mut [u8]| {
        let mut answer = twin::check(image, scratch);
        answer.free += u64::from(answer.tables == 3);
        answer
    };
    assert_found(Program { check, ..TWIN }, "expected");
}

#[test]
fn always_3() {
    let check = |image: &[u8], scratch: &mut [u8]| {
        twin::check(image, scratch);
        Answer {
            number: 3,
            ..Answer::default()
        }
    };
    assert_found(Program { check, ..TWIN }, "expected");
}

#[test]
fn a_byte_of_the_scratch() {
    let check = |image: &[u8], scratch: &mut [u8]| {
        let answer = twin::check(image, scratch);
        if answer.number == 3 {
            scratch[image.len() - 1] = 1;
        }
        answer
    };
    assert_found(Program { check, ..TWIN }, "scratch");
}

#[test]
fn a_byte_of_the_scratch_beyond_the_image() {
    let check = |image: &[u8], scratch: &mut [u8]| {
        let answer = twin::check(image, scratch);
        if let Some(byte) = scratch.get_mut(image.len()) {
            *byte ^= 1;
        }
        answer
    };
    assert_found(Program { check, ..TWIN }, "scratch");
}

#[test]
fn a_byte_of_the_answer_buffer() {
    let get = |image: &[u8], scratch: &mut [u8], name: &[u8], key: &[u8], into: &mut [u8]| {
        let answer = twin::get(image, scratch, name, key, into);
        if answer.number == 0 {
            into[answer.length as usize..].fill(0);
        }
        answer
    };
    let get = Some(get as _);
    assert_found(Program { get, ..TWIN }, "answer buffer");
}

#[test]
fn a_byte_of_the_image() {
    let put = |image: &mut [u8], scratch: &mut [u8], name: &[u8], key: &[u8], value: &[u8]| {
        let answer = twin::put(image, scratch, name, key, value);
        if answer.number == 0 {
            image[1023] ^= 1;
        }
        answer
    };
    let put = Some(put as _);
    assert_found(Program { put, ..TWIN }, "image");
}

#[test]
fn a_change_that_is_not_made() {
    let create = |image: &mut [u8], scratch: &mut [u8], name: &[u8]| {
        let mut copy = image.to_vec();
        twin::create(&mut copy, scratch, name)
    };
    let create = Some(create as _);
    assert_found(Program { create, ..TWIN }, "image");
}

#[test]
fn a_length_needed_that_is_wrong() {
    let next = |image: &[u8], scratch: &mut [u8], name: &[u8], key: &[u8], into: &mut [u8]| {
        let mut answer = twin::next(image, scratch, name, key, into);
        answer.length += u64::from(answer.number == 9);
        answer
    };
    let next = Some(next as _);
    assert_found(Program { next, ..TWIN }, "expected");
}

#[test]
fn a_key_that_is_too_long() {
    let get = |image: &[u8], scratch: &mut [u8], name: &[u8], key: &[u8], into: &mut [u8]| {
        let key = &key[..key.len().min(MAX_LENGTH)];
        twin::get(image, scratch, name, key, into)
    };
    let get = Some(get as _);
    let found = found_reading(&Program { get, ..TWIN }).expect_err("a difference");
    assert!(found.contains("number: 4"), "{found}");
}

#[test]
fn an_exact_buffer_that_is_refused() {
    let next = |image: &[u8], scratch: &mut [u8], name: &[u8], key: &[u8], into: &mut [u8]| {
        let short = into.len().saturating_sub(1);
        twin::next(image, scratch, name, key, &mut into[..short])
    };
    let next = Some(next as _);
    let found = found_reading(&Program { next, ..TWIN }).expect_err("a difference");
    assert!(found.contains("number: 9"), "{found}");
}

/// The refusal with 10.
const NO_ROOM: Answer = Answer {
    number: 10,
    length: 0,
    pages: 0,
    tables: 0,
    keys: 0,
    free: 0,
};

/// Makes a change by the twin, but refuses with 10 where it would take the last free page.
fn unless_last(
    image: &mut [u8],
    scratch: &mut [u8],
    change: impl Fn(&mut [u8], &mut [u8]) -> Answer,
) -> Answer {
    let had = twin::check(image, scratch).free;
    let mut copy = image.to_vec();
    let answer = change(&mut copy, scratch);
    let left = twin::check(&copy, scratch).free;
    if answer.number == 0 && left == 0 && had > 0 {
        return NO_ROOM;
    }
    image.copy_from_slice(&copy);
    answer
}

#[test]
fn a_last_page_that_is_not_taken() {
    let put = |image: &mut [u8], scratch: &mut [u8], name: &[u8], key: &[u8], value: &[u8]| {
        unless_last(image, scratch, |image, scratch| {
            twin::put(image, scratch, name, key, value)
        })
    };
    let put = Some(put as _);
    let found = put_lists(&Program { put, ..TWIN }, 1, 300).expect_err("a difference");
    assert!(found.what.contains("number: 10"), "{}", found.what);
}

#[test]
fn the_last_pages_that_no_create_takes() {
    let create = |image: &mut [u8], scratch: &mut [u8], name: &[u8]| {
        unless_last(image, scratch, |image, scratch| {
            twin::create(image, scratch, name)
        })
    };
    let create = Some(create as _);
    let found = create_lists(&Program { create, ..TWIN }, 1, 300).expect_err("a difference");
    assert!(found.what.contains("number: 10"), "{}", found.what);
}

/// The answer, but done where there was no room; the image is left as it was.
fn silent(answer: Answer) -> Answer {
    match answer {
        NO_ROOM => Answer::default(),
        _ => answer,
    }
}

#[test]
fn a_put_that_does_not_say_that_there_is_no_room() {
    let put = |image: &mut [u8], scratch: &mut [u8], name: &[u8], key: &[u8], value: &[u8]| {
        silent(twin::put(image, scratch, name, key, value))
    };
    let put = Some(put as _);
    assert_found(Program { put, ..TWIN }, "expected Answer { number: 10");
}

#[test]
fn a_create_that_does_not_say_that_there_is_no_room() {
    let create = |image: &mut [u8], scratch: &mut [u8], name: &[u8]| {
        silent(twin::create(image, scratch, name))
    };
    let create = Some(create as _);
    assert_found(Program { create, ..TWIN }, "expected Answer { number: 10");
}

/// What is found of a wrong remove on so many lists of a kind.
fn found_of_remove(lists: Compare, count: u64, remove: RemoveCall) -> String {
    let remove = Some(remove);
    let found = lists(&Program { remove, ..TWIN }, 1, count);
    found.expect_err("a difference").what
}

/// What is found of a wrong remove on lists that empty full cards.
fn found_emptying(remove: RemoveCall) -> String {
    found_of_remove(empty_lists, 100, remove)
}

#[test]
fn a_full_card_from_which_no_key_is_removed() {
    let found =
        found_emptying(
            |image, scratch, name, key| match twin::check(image, scratch).free {
                0 => NO_ROOM,
                _ => twin::remove(image, scratch, name, key),
            },
        );
    let first = "call 0, a remove: Answer { number: 10";
    assert!(found.starts_with(first), "{found}");
}

/// Pages that the span has are not counted as room.
#[test]
fn a_remove_that_wants_the_continuation_pages_anew() {
    let found = found_emptying(|image, scratch, name, key| {
        let free = twin::check(image, scratch).free;
        let mut copy = image.to_vec();
        let answer = twin::remove(&mut copy, scratch, name, key);
        if answer.number == 0 && continuations(&copy, name, key) > free {
            return NO_ROOM;
        }
        image.copy_from_slice(&copy);
        answer
    });
    assert!(found.contains("a remove: Answer { number: 10"), "{found}");
}

/// How many continuation pages the target span of a key has.
fn continuations(image: &[u8], name: &[u8], key: &[u8]) -> u64 {
    let layout = check(image).expect("well-formed");
    let table = &layout.tables[layout.find(name).expect("a table")].1;
    let target = table.target(Sort::of(name), key);
    table.spans[target].continuations.len() as u64
}

/// What is found of a wrong remove on lists of removes.
fn found_removing(remove: RemoveCall) -> String {
    found_of_remove(remove_lists, 600, remove)
}

#[test]
fn a_head_that_falls_with_its_highest_tower() {
    let found = found_removing(|image, scratch, name, key| {
        let answer = twin::remove(image, scratch, name, key);
        for (_, table) in check(image).map_or(Vec::new(), |layout| layout.tables) {
            let highest = table.towers().map(|tower| tower.height).max();
            if let Some(height) = highest.filter(|_| answer.number == 0) {
                write_u16(image, table.head.page, tower::CURRENT, height);
            }
        }
        answer
    });
    assert!(found.contains("image"), "{found}");
}

#[test]
fn a_given_page_that_is_cleared() {
    let found = found_removing(|image, scratch, name, key| {
        let before = check(image).map_or(Vec::new(), |layout| layout.free);
        let answer = twin::remove(image, scratch, name, key);
        let after = check(image).map_or(Vec::new(), |layout| layout.free);
        let were: Vec<u32> = before.iter().flat_map(|one| one.listed.clone()).collect();
        for page in after.iter().flat_map(|one| &one.listed) {
            if !were.contains(page) {
                bytes_mut(image, *page)[8..].fill(0);
            }
        }
        answer
    });
    assert!(found.contains("image"), "{found}");
}

/// Gives the pages of a span back in another order: the last two change places in the free list.
#[test]
fn pages_given_back_in_another_order() {
    let found = found_removing(|image, scratch, name, key| {
        let had = twin::check(image, scratch).free;
        let answer = twin::remove(image, scratch, name, key);
        let blocks = check(image).map_or(Vec::new(), |layout| layout.free);
        let given = twin::check(image, scratch).free - had;
        if let Some(block) = blocks
            .first()
            .filter(|one| given > 1 && one.listed.len() > 1)
        {
            let last = block.listed.len() - 1;
            let (one, other) = (block.listed[last], block.listed[last - 1]);
            write_u32(image, block.page, listed_number(last), other);
            write_u32(image, block.page, listed_number(last - 1), one);
        }
        answer
    });
    assert!(found.contains("image"), "{found}");
}

/// On how many pairs of keys a wrong comparison has to be found out, of more than 200,000.
const FEW_PAIRS: u64 = 2_000;

/// Whether a wrong comparison of keys is found out in check, in get and in next, each alone.
fn assert_order_found<O: Order>() {
    let check = reading_twin::<O, Slices>("wrong in check").check;
    let Program { get, next, .. } = reading_twin::<Slices, O>("wrong in search");
    let programs = [
        ("a check: ", Program { check, ..TWIN }),
        ("a get: ", Program { get, ..TWIN }),
        ("a next: ", Program { next, ..TWIN }),
    ];
    for (call, program) in programs {
        let found = key_pairs(&program, 0, FEW_PAIRS).expect_err("a difference");
        assert!(found.what.starts_with(call), "{}", found.what);
    }
}

/// Compares words of eight bytes, and then the bytes that are left over.
fn by_words(one: &[u8], other: &[u8], word: fn([u8; 8]) -> u64) -> (Ordering, Ordering) {
    let ((one, one_rest), (other, other_rest)) = (one.as_chunks(), other.as_chunks());
    let numbers = |words: &[[u8; 8]]| words.iter().copied().map(word).collect::<Vec<u64>>();
    (numbers(one).cmp(&numbers(other)), one_rest.cmp(other_rest))
}

/// Eight bytes at a time, as it has to be done.
struct Words;

impl Order for Words {
    fn pieces(one: &[u8], other: &[u8]) -> Ordering {
        let (words, left_over) = by_words(one, other, u64::from_be_bytes);
        words.then(left_over)
    }
}

/// The bytes of a word taken in the other order.
struct OtherOrder;

impl Order for OtherOrder {
    fn pieces(one: &[u8], other: &[u8]) -> Ordering {
        let (words, left_over) = by_words(one, other, u64::from_le_bytes);
        words.then(left_over)
    }
}

/// The bytes that are left over behind whole words not compared.
struct WholeWords;

impl Order for WholeWords {
    fn pieces(one: &[u8], other: &[u8]) -> Ordering {
        by_words(one, other, u64::from_be_bytes).0
    }
}

/// A proper prefix first only where it is more than seven bytes shorter.
struct ShortByWords;

impl Order for ShortByWords {
    fn pieces(one: &[u8], other: &[u8]) -> Ordering {
        Slices::pieces(one, other)
    }

    fn lengths(one: usize, other: usize) -> Ordering {
        match one.abs_diff(other) {
            0..=7 => Ordering::Equal,
            _ => one.cmp(&other),
        }
    }
}

#[test]
fn keys_compared_by_words() {
    let program = reading_twin::<Words, Words>("words");
    key_pairs(&program, 0, FEW_PAIRS).expect("no difference");
}

#[test]
fn words_in_the_other_byte_order() {
    assert_order_found::<OtherOrder>();
}

#[test]
fn bytes_left_over_that_are_not_compared() {
    assert_order_found::<WholeWords>();
}

#[test]
fn a_prefix_that_is_little_shorter_and_not_first() {
    assert_order_found::<ShortByWords>();
}
