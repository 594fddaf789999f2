//! Pairs of keys of every length up to 200, at every offset of a page: how two keys compare that
//! differ in any one byte, in several or in none, or of which one is a proper prefix of the other.
//! "No answer changes" where keys are compared eight bytes at a time (document 02, T-04).
//!
//! The keys stand as neighbours in a span, so that check compares them; and one of them stands there
//! alone, so that get and next compare the other with it. What has to be answered follows from how
//! the pair was made: the keys are not compared to find it out.

pub mod neighbours;
pub mod offsets;

use crate::calls;
use crate::check::check;
use crate::encode;
use crate::entries::{self, Entry, Place};
use crate::generate::{self, Knobs, Sample};
use crate::ledger::Said;
use crate::page::{continuation, PAGE};
use crate::random::Random;
use crate::reading;
use crate::request::{Call, Request};

/// The greatest length of a key.
pub const LONGEST: usize = 200;

/// The length of an entry's two lengths.
const LENGTHS: usize = 4;

/// The first offset of a page at which a key can begin. The last one is 1024, where the lengths of
/// the entry end the page, so that the key begins on the next one.
pub const FIRST: usize = continuation::DATA + LENGTHS;

/// How many offsets there are.
const OFFSETS: usize = PAGE + 1 - FIRST;

/// How many pairs there are: one for each length and offset.
pub const PAIRS: u64 = (LONGEST * OFFSETS) as u64;

/// Offsets, and the bytes in which keys differ, are gone through in steps of so many: so they are
/// spread evenly also where only some of the pairs are made. All are reached, since this is a prime
/// above `LONGEST`, and the number of offsets is another.
const STEP: usize = 227;

/// A table for pairs of keys, with a key below all of them and one above them.
pub struct Row {
    pub name: &'static [u8],
    pub least: &'static [u8],
    pub greatest: &'static [u8],
}

/// The table of the pairs here: its least and greatest keys are that by the first byte.
pub const SERIALS: Row = Row {
    name: b"serials",
    least: &[0x01],
    greatest: &[0xff],
};

/// Where the entries of the span end: it has two continuation pages, whatever the pair.
const END: Place = Place {
    page: 2,
    offset: PAGE / 2,
};

/// P: two pages beside those of the metaindex, of the table and the superblock.
const PAGES: usize = 9;

/// The bytes in which keys differ: on both sides of 0x80, near and far apart, and on one side.
const BYTES: [(u8, u8); 4] = [(0x7f, 0x80), (0x02, 0xfe), (0x3f, 0x40), (0xbf, 0xc0)];

/// In how many ways keys differ.
const KINDS: usize = 5;

/// In what the keys of a pair differ.
#[derive(Clone, Copy, Debug, PartialEq, Eq, PartialOrd, Ord)]
pub enum Difference {
    Nothing,
    /// This byte.
    Byte(usize),
    /// This byte, and all behind it the other way.
    Bytes(usize),
    /// This byte, the last one of the higher key; the lower one is longer.
    LastByte(usize),
    /// The length: the lower key is a proper prefix, of this length.
    Length(usize),
}

impl Difference {
    /// The byte in which the keys differ first, if they differ in any.
    fn byte(self) -> Option<usize> {
        match self {
            Difference::Byte(at) | Difference::Bytes(at) | Difference::LastByte(at) => Some(at),
            Difference::Nothing | Difference::Length(_) => None,
        }
    }
}

/// Two keys, and where the first of them lies on the pages of a span.
#[derive(Clone, Debug)]
pub struct Pair {
    pub place: Place,
    pub lower: Vec<u8>,
    /// As `lower`, if the keys differ in nothing.
    pub higher: Vec<u8>,
}

/// Entries of a span, a call, and what it answers.
#[derive(Clone, Debug)]
pub struct Trial {
    pub entries: Vec<Entry>,
    pub request: Request,
    pub said: Said,
}

/// Pair `number` of `PAIRS`, and then from the first one again.
pub fn pair(number: u64) -> Pair {
    let number = (number % PAIRS) as usize;
    let (round, length) = (number / LONGEST, 1 + number % LONGEST);
    let (turn, kind) = (round / KINDS, round % KINDS);
    let at = STEP * turn % length;
    let difference = match kind {
        1 => Difference::Byte(at),
        2 => Difference::Bytes(at),
        3 => Difference::LastByte(at),
        4 if length > 1 => Difference::Length(1 + STEP * turn % (length - 1)),
        _ => Difference::Nothing,
    };
    let (lower, higher) = keys(length, difference, BYTES[(turn + length) % BYTES.len()]);
    let offset = FIRST + STEP * number % OFFSETS;
    Pair {
        place: place(offset, turn.is_multiple_of(2)),
        lower,
        higher,
    }
}

/// The place at this offset of the span's own page, if that is wanted and there is room for an
/// entry before, or of its first continuation page.
fn place(offset: usize, on_own: bool) -> Place {
    let least = SERIALS.least.len();
    let earliest = Place::START.after_entry(least, 0).after(LENGTHS);
    let page = usize::from(!on_own || offset < earliest.offset);
    Place { page, offset }
}

/// The keys, of which the longer has this length. Behind every other proper prefix the longer key has
/// zeros: a comparison that fills the shorter one up with zeros takes them for equal.
fn keys(length: usize, difference: Difference, bytes: (u8, u8)) -> (Vec<u8>, Vec<u8>) {
    let common = |place: usize| (2 + 59 * place) as u8;
    let mut lower: Vec<u8> = (0..length).map(common).collect();
    let mut higher = lower.clone();
    let (low, high) = bytes;
    match difference {
        Difference::Bytes(at) => {
            lower[at..].fill(high);
            higher[at..].fill(low);
        }
        Difference::LastByte(at) => higher.truncate(at + 1),
        Difference::Length(short) => {
            lower.truncate(short);
            if (length + short).is_multiple_of(2) {
                higher[short..].fill(0);
            }
        }
        Difference::Nothing | Difference::Byte(_) => (),
    }
    if let Some(at) = difference.byte() {
        (lower[at], higher[at]) = (low, high);
    }
    (lower, higher)
}

impl Pair {
    /// The calls to make on the table: checks with the keys as neighbours, in order and the other way round; gets
    /// and nexts with one of them that come to the other, where it is below and where it is above.
    pub fn trials(&self, row: &Row) -> Vec<Trial> {
        let (lower, higher) = (self.lower.as_slice(), self.higher.as_slice());
        let trial = |stored: &[&[u8]], call, said| trial(row, self.place, stored, call, said);
        let (get, next) = (
            |key| reading::get(row.name, key),
            |key| reading::next(row.name, key),
        );
        let greatest = answered(row.greatest);
        if lower == higher {
            return vec![
                trial(&[lower, higher], Call::Check, refused(3)),
                trial(&[lower], get(higher), answered(&value(0))),
                trial(&[lower], next(higher), greatest),
            ];
        }
        vec![
            trial(&[lower, higher], Call::Check, accepted(2)),
            trial(&[higher, lower], Call::Check, refused(3)),
            trial(&[lower, higher], get(higher), answered(&value(1))),
            trial(&[higher], get(lower), refused(8)),
            trial(&[lower], next(higher), greatest),
            trial(&[higher], next(lower), answered(higher)),
        ]
    }
}

/// A call on a span in which these keys are stored, the first at this place.
fn trial(row: &Row, place: Place, stored: &[&[u8]], call: Call, said: Said) -> Trial {
    Trial {
        entries: span_entries(row, place, stored),
        request: Request {
            call,
            scratch_length: PAGE * PAGES,
            answer_length: LONGEST,
            fill: 1,
        },
        said,
    }
}

/// What check answers where so many keys are stored beside the least and the greatest.
fn accepted(stored: u64) -> Said {
    Said {
        pages: PAGES as u64,
        tables: 1,
        keys: stored + 2,
        ..Said::default()
    }
}

fn refused(number: u32) -> Said {
    Said {
        number,
        ..Said::default()
    }
}

fn answered(bytes: &[u8]) -> Said {
    Said {
        length: bytes.len() as u64,
        bytes: bytes.to_vec(),
        ..Said::default()
    }
}

/// The value of stored key `number`.
fn value(number: usize) -> Vec<u8> {
    vec![number as u8]
}

/// The entries of a span with these keys, the first of which begins at this place. The value of a
/// smaller key fills the pages up to it, and that of a greater key up to the end.
fn span_entries(row: &Row, place: Place, keys: &[&[u8]]) -> Vec<Entry> {
    let begin = Place {
        offset: place.offset - LENGTHS,
        ..place
    };
    let mut entries = vec![filling(Place::START, row.least, begin)];
    for (number, key) in keys.iter().enumerate() {
        entries.push(Entry {
            key: key.to_vec(),
            value: value(number),
        });
    }
    entries.push(filling(entries::end(&entries), row.greatest, END));
    entries
}

/// An entry with this key that begins at or after a place and whose value ends at another.
fn filling(from: Place, key: &[u8], to: Place) -> Entry {
    let from = from.after_entry(key.len(), 0);
    let pages = (PAGE - continuation::DATA) * (to.page - from.page);
    Entry {
        key: key.to_vec(),
        value: vec![0x5a; pages + to.offset - from.offset],
    }
}

/// An image with one table, of whose only span the entries are written anew for each trial.
pub struct Card(Sample);

/// The image with this table, and with no page free.
pub fn card(row: &Row) -> Card {
    let knobs = Knobs {
        pages: PAGES..=PAGES,
        tables: 0..=0,
        span_sizes: vec![4],
        crowded: 0,
        ..Knobs::tiny()
    };
    let mut image = generate::sample(&mut Random::new(1), &knobs).image;
    let mut scratch = vec![0; image.len()];
    let name = row.name;
    let entry = filling(Place::START, row.least, END);
    let created = calls::create(&mut image, &mut scratch, name);
    let put = calls::put(&mut image, &mut scratch, name, &entry.key, &entry.value);
    assert_eq!((created.number, put.number), (0, 0), "there is room");
    let layout = check(&image).expect("well-formed");
    Card(Sample { image, layout })
}

impl Card {
    /// The image with these entries of a trial.
    pub fn with(&mut self, entries: Vec<Entry>) -> &[u8] {
        let Sample { image, layout } = &mut self.0;
        let table = &mut layout.tables[0].1;
        table.spans[0].entries = entries;
        encode::span(image, table, 0);
        encode::counts(image, table);
        image
    }

    /// The entries that it has.
    pub fn entries(&self) -> &[Entry] {
        &self.0.layout.tables[0].1.spans[0].entries
    }
}
