//! Pairs of keys of an offset table (document 02, T-05): numbers that differ first in each of their
//! bytes, of one sign and of both, with the first or the second key cut by the end of a page at each
//! byte.

use super::{Pair, Row, LENGTHS};
use crate::entries::{self, Entry, Place};
use crate::numbers;
use crate::page::PAGE;
use crate::reached::held;
use crate::sort::{number, Sort};
use std::collections::BTreeSet;

const LEAST: [u8; 4] = i32::MIN.to_be_bytes();
const GREATEST: [u8; 4] = i32::MAX.to_be_bytes();

/// The table of the pairs.
pub const ROW: Row = Row {
    name: b"#offsets",
    least: &LEAST,
    greatest: &GREATEST,
};

/// The length of a key.
const KEY: usize = LEAST.len();

/// How many bytes lie between the beginnings of both keys: the first one, its value, and the lengths
/// of the second entry.
const BETWEEN: usize = KEY + 1 + LENGTHS;

/// How many bytes from the beginning of the first key on lie before the page's end: so few that it is
/// cut, so few that the second key is cut, or many.
const BEFORE: [usize; 11] = [
    0,
    1,
    2,
    3,
    KEY,
    BETWEEN,
    BETWEEN + 1,
    BETWEEN + 2,
    BETWEEN + 3,
    BETWEEN + KEY,
    100,
];

/// The bytes in which numbers differ, on both sides of 0x80.
const BYTES: [u8; 4] = [0x01, 0x7f, 0x80, 0xfe];

/// How many numbers there are: 0 and -1, and these with each byte set to each of `BYTES`, but for the
/// least and the greatest number.
pub const NUMBERS: usize = 2 + 2 * KEY * BYTES.len() - 2;

/// How many pairs there are: two of the numbers, or one twice, at each of the places.
pub const PAIRS: u64 = (NUMBERS * (NUMBERS + 1) / 2 * BEFORE.len()) as u64;

/// The numbers of the pairs, in rising order.
pub fn numbers() -> Vec<i32> {
    let mut numbers = BTreeSet::from([0, -1]);
    for all in [0_i32, -1] {
        for place in 0..KEY {
            let mut bytes = all.to_be_bytes();
            numbers.extend(BYTES.map(|byte| {
                bytes[place] = byte;
                i32::from_be_bytes(bytes)
            }));
        }
    }
    numbers.remove(&i32::MIN);
    numbers.remove(&i32::MAX);
    numbers.into_iter().collect()
}

/// Pair `number` of `PAIRS`, and then from the first one again.
pub fn pair(number: u64) -> Pair {
    let number = (number % PAIRS) as usize;
    let before = BEFORE[number % BEFORE.len()];
    let numbers = numbers();
    let lower_with = |&lower: &i32| {
        let not_below = numbers.iter().filter(move |&&higher| lower <= higher);
        not_below.map(move |&higher| (lower, higher))
    };
    let mut pairs = numbers.iter().flat_map(lower_with);
    let (lower, higher) = pairs.nth(number / BEFORE.len()).expect("so many pairs");
    Pair {
        place: Place {
            page: 0,
            offset: PAGE - before,
        },
        lower: numbers::key(lower),
        higher: numbers::key(higher),
    }
}

/// All cases.
pub fn all() -> Vec<String> {
    let mut all = vec!["equal numbers".to_owned()];
    for order in [true, false] {
        all.push(of_both_signs(order));
        all.extend((0..KEY).map(|byte| of_one_sign(byte, order)));
    }
    for which in WHICH {
        all.extend((0..=KEY).map(|bytes| cut(which, bytes)));
    }
    all
}

/// The keys of a pair.
const WHICH: [&str; 2] = ["first", "second"];

/// The case of a negative number beside another, in order or the other way round.
fn of_both_signs(rises: bool) -> String {
    format!("numbers of both signs, {}", order(rises))
}

/// The case of numbers of one sign that differ first in this byte.
fn of_one_sign(byte: usize, rises: bool) -> String {
    format!(
        "numbers of one sign, byte {byte} differs first, {}",
        order(rises)
    )
}

fn order(rises: bool) -> &'static str {
    match rises {
        true => "in order",
        false => "the other way round",
    }
}

/// The case of a key of which so many bytes lie before the end of a page.
fn cut(which: &str, bytes: usize) -> String {
    format!("{bytes} bytes of the {which} number before the page's end")
}

/// The cases that the keys of a pair are as neighbours among the entries of a span.
pub fn cases(entries: &[Entry]) -> Vec<String> {
    let [one, other] = [1, 2].map(|place: usize| entries[place].key.as_slice());
    let rises = Sort::Numbers.compare(one, other).is_lt();
    let has_both = (number(one) < Some(0)) != (number(other) < Some(0));
    let mut bytes = one.iter().zip(other);
    let mut cases = match bytes.position(|(one, other)| one != other) {
        None => held(&[("equal numbers", true)]),
        Some(_) if has_both => vec![of_both_signs(rises)],
        Some(byte) => vec![of_one_sign(byte, rises)],
    };
    for (place, which) in WHICH.into_iter().enumerate() {
        let key_at = entries::end(&entries[..=place]).lengths().after(LENGTHS);
        if key_at.left() <= KEY {
            cases.push(cut(which, key_at.left()));
        }
    }
    cases
}
