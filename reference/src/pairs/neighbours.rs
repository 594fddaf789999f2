//! What a pair of keys that stand as neighbours in a span covers, by their bytes and places.

use super::{Difference, FIRST, LENGTHS, LONGEST};
use crate::entries::{self, Entry, Place};
use crate::page::PAGE;
use crate::reached::held;
use std::cmp::Ordering;
use std::ops::Range;

/// How many bytes are compared at a time.
const WORD: usize = 8;

/// The cases of a pair, but for how many bytes are left over and how much shorter a prefix is.
const FIXED: [&str; 12] = [
    "equal keys",
    "one of the first eight bytes differs first",
    "a byte of a later word differs first",
    "a byte of those left over differs first",
    "later bytes of the same word differ the other way",
    "the lower key is the longer one",
    "a proper prefix, 8 or more bytes shorter",
    "the first key within its page",
    "the first key up to the end of its page",
    "the first key over the end of its page",
    "the first key on the page after its lengths",
    "both keys within one page",
];

/// All cases.
pub fn all() -> Vec<String> {
    let fixed = FIXED.iter().map(|case| (*case).to_owned());
    let left_over = (0..WORD).map(left_over);
    let shorter = (1..WORD).map(shorter);
    fixed.chain(left_over).chain(shorter).collect()
}

/// The case of keys of which so many bytes are left over behind whole words, as far as both go.
fn left_over(bytes: usize) -> String {
    format!("{bytes} bytes left over")
}

/// The case of a proper prefix that is so many bytes shorter.
fn shorter(bytes: usize) -> String {
    format!("a proper prefix, {bytes} bytes shorter")
}

/// What the pairs have to cover.
#[derive(Clone, Copy, Debug, PartialEq, Eq, PartialOrd, Ord)]
pub enum Covered {
    /// A first key of this length that begins at this offset.
    Offset { length: usize, offset: usize },
    /// Keys that differ so, the longer of this length, and whether they rise.
    Difference {
        length: usize,
        difference: Difference,
        rises: bool,
    },
}

/// All that the pairs have to cover.
pub fn all_covered() -> Vec<Covered> {
    let mut all = Vec::new();
    for length in 1..=LONGEST {
        let offsets = FIRST..=PAGE;
        all.extend(offsets.map(|offset| Covered::Offset { length, offset }));
        let covered = |difference, rises| Covered::Difference {
            length,
            difference,
            rises,
        };
        all.push(covered(Difference::Nothing, false));
        for difference in differences(length) {
            all.extend([covered(difference, true), covered(difference, false)]);
        }
    }
    all
}

/// All differences of two keys that are not equal, the longer of this length.
fn differences(length: usize) -> Vec<Difference> {
    let mut differences = vec![Difference::Byte(length - 1)];
    for at in 0..length - 1 {
        differences.extend([
            Difference::Byte(at),
            Difference::Bytes(at),
            Difference::LastByte(at),
            Difference::Length(at + 1),
        ]);
    }
    differences
}

/// Two keys beside each other, and where they begin.
pub struct Neighbours<'a> {
    keys: [&'a [u8]; 2],
    places: [Place; 2],
}

impl Neighbours<'_> {
    /// The keys of a pair among the entries of a span.
    pub fn of(entries: &[Entry]) -> Neighbours<'_> {
        let place = |number| entries::end(&entries[..number]).lengths().after(LENGTHS);
        Neighbours {
            keys: [&entries[1].key, &entries[2].key],
            places: [place(1), place(2)],
        }
    }

    /// What they cover.
    pub fn covered(&self) -> [Covered; 2] {
        let [first, second] = self.keys.map(<[u8]>::len);
        let (difference, rises) = self.difference();
        [
            Covered::Offset {
                length: first,
                offset: self.places[0].offset,
            },
            Covered::Difference {
                length: first.max(second),
                difference,
                rises,
            },
        ]
    }

    /// In what the keys differ, and whether they rise.
    fn difference(&self) -> (Difference, bool) {
        let [first, second] = self.keys;
        let lengths = first.len().cmp(&second.len());
        let bytes = first.iter().zip(second).enumerate();
        let mut differ = bytes.filter(|(_, (one, other))| one != other);
        let Some((at, (one, other))) = differ.next() else {
            let difference = match lengths {
                Ordering::Equal => Difference::Nothing,
                _ => Difference::Length(first.len().min(second.len())),
            };
            return (difference, lengths.is_lt());
        };
        let rises = one < other;
        let mut later = differ.map(|(_, (one, other))| (one < other) == rises);
        let difference = match (lengths, later.next()) {
            (Ordering::Equal, None) => Difference::Byte(at),
            (Ordering::Equal, Some(false)) => Difference::Bytes(at),
            (_, None) if lengths.is_gt() == rises => Difference::LastByte(at),
            _ => unreachable!("the keys of no pair differ so"),
        };
        (difference, rises)
    }

    /// The cases that they are.
    pub fn cases(&self) -> Vec<String> {
        let [first, second] = self.keys.map(<[u8]>::len);
        let (both, by) = (first.min(second), first.abs_diff(second));
        let (difference, _) = self.difference();
        let mut cases = of_bytes(difference, both);
        cases.push(left_over(both % WORD));
        if difference == Difference::Length(both) {
            cases.push(match by {
                ..WORD => shorter(by),
                _ => "a proper prefix, 8 or more bytes shorter".to_owned(),
            });
        }
        cases.extend(self.of_places());
        cases
    }

    /// The cases of where they lie.
    fn of_places(&self) -> Vec<String> {
        let [first, second] = self.places;
        let end = first.after(self.keys[0].len());
        let last = second.after(self.keys[1].len());
        let (is_behind, is_over) = (first.offset == PAGE, end.page > first.page);
        let is_up_to = end.offset == PAGE;
        held(&[
            ("the first key within its page", !is_over && !is_up_to),
            (
                "the first key up to the end of its page",
                !is_over && is_up_to,
            ),
            (
                "the first key over the end of its page",
                is_over && !is_behind,
            ),
            ("the first key on the page after its lengths", is_behind),
            ("both keys within one page", last.page == first.page),
        ])
    }
}

/// The cases of keys that differ so in their bytes, as far as both go.
fn of_bytes(difference: Difference, both: usize) -> Vec<String> {
    let words = both - both % WORD;
    let is_in = |range: Range<usize>| difference.byte().is_some_and(|at| range.contains(&at));
    held(&[
        ("equal keys", difference == Difference::Nothing),
        ("one of the first eight bytes differs first", is_in(0..WORD)),
        ("a byte of a later word differs first", is_in(WORD..words)),
        (
            "a byte of those left over differs first",
            is_in(words.max(WORD)..both),
        ),
        (
            "later bytes of the same word differ the other way",
            matches!(difference, Difference::Bytes(at) if at % WORD < WORD - 1),
        ),
        (
            "the lower key is the longer one",
            matches!(difference, Difference::LastByte(_)),
        ),
    ])
}
