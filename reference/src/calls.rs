//! The six calls over a lent image, with scratch and answer buffer.

use crate::check;
use crate::edit::{self, NoRoom};
use crate::entries::MAX_LENGTH;
use crate::free;
use crate::layout::{Layout, Table};
use crate::page;
use crate::sort::Sort;

/// What a call returns. "A refusal returns its number, and with 9 the length needed, every other
/// number in the result 0."
#[derive(Clone, Copy, Debug, Default, PartialEq, Eq)]
pub struct Answer {
    /// 0, or the refusal's number.
    pub number: u32,
    /// The length of a value or key; with 9 the length needed.
    pub length: u64,
    /// P.
    pub pages: u64,
    pub tables: u64,
    pub keys: u64,
    /// F.
    pub free: u64,
}

/// The refusals. `NoRoom` is one of put and create alone: "10 is no longer listed for remove"
/// (document 02, T-07).
#[derive(Clone, Copy, Debug, PartialEq, Eq)]
pub(crate) enum Refusal {
    ImageLength,
    ScratchShort,
    NotWellFormed,
    NameOrKey,
    ValueLength,
    NoSuchTable,
    TableExists,
    NoSuchKey,
    AnswerShort { needed: usize },
    NoRoom,
}

impl From<Refusal> for Answer {
    /// The refusal's number, and the length needed with 9.
    fn from(refusal: Refusal) -> Answer {
        let (number, length) = match refusal {
            Refusal::ImageLength => (1, 0),
            Refusal::ScratchShort => (2, 0),
            Refusal::NotWellFormed => (3, 0),
            Refusal::NameOrKey => (4, 0),
            Refusal::ValueLength => (5, 0),
            Refusal::NoSuchTable => (6, 0),
            Refusal::TableExists => (7, 0),
            Refusal::NoSuchKey => (8, 0),
            Refusal::AnswerShort { needed } => (9, needed as u64),
            Refusal::NoRoom => (10, 0),
        };
        Answer {
            number,
            length,
            ..Answer::default()
        }
    }
}

impl From<NoRoom> for Refusal {
    fn from(_: NoRoom) -> Refusal {
        Refusal::NoRoom
    }
}

/// "Check gives P, tables, keys (metaindex not counted) and F."
pub fn check(image: &[u8], scratch: &mut [u8]) -> Answer {
    answer(open(image, scratch).map(|layout| Answer {
        pages: u64::from(layout.pages),
        tables: layout.tables.len() as u64,
        keys: layout.keys() as u64,
        free: layout.free_pages() as u64,
        ..Answer::default()
    }))
}

/// The value of a key.
pub fn get(image: &[u8], scratch: &mut [u8], name: &[u8], key: &[u8], into: &mut [u8]) -> Answer {
    answer(try_get(image, scratch, name, key, into))
}

fn try_get(
    image: &[u8],
    scratch: &mut [u8],
    name: &[u8],
    key: &[u8],
    into: &mut [u8],
) -> Result<Answer, Refusal> {
    let layout = open(image, scratch)?;
    require(legal_name(name) && legal_key(name, key), Refusal::NameOrKey)?;
    let table = find(&layout, name)?;
    let value = table.value(key).ok_or(Refusal::NoSuchKey)?;
    hand_over(value, into)
}

/// "Next gives the smallest key above the one asked; the empty key asks for the first."
pub fn next(image: &[u8], scratch: &mut [u8], name: &[u8], key: &[u8], into: &mut [u8]) -> Answer {
    answer(try_next(image, scratch, name, key, into))
}

fn try_next(
    image: &[u8],
    scratch: &mut [u8],
    name: &[u8],
    key: &[u8],
    into: &mut [u8],
) -> Result<Answer, Refusal> {
    let layout = open(image, scratch)?;
    let legal = legal_name(name) && (key.is_empty() || legal_key(name, key));
    require(legal, Refusal::NameOrKey)?;
    let table = find(&layout, name)?;
    let above = table.above(Sort::of(name), key);
    let above = above.ok_or(Refusal::NoSuchKey)?;
    hand_over(above, into)
}

/// Puts a value under a key.
pub fn put(image: &mut [u8], scratch: &mut [u8], name: &[u8], key: &[u8], value: &[u8]) -> Answer {
    answer(try_put(image, scratch, name, key, value))
}

fn try_put(
    image: &mut [u8],
    scratch: &mut [u8],
    name: &[u8],
    key: &[u8],
    value: &[u8],
) -> Result<Answer, Refusal> {
    let mut layout = open(image, scratch)?;
    require(legal_name(name) && legal_key(name, key), Refusal::NameOrKey)?;
    require(value.len() <= MAX_LENGTH, Refusal::ValueLength)?;
    let free = layout.free_pages();
    let table = find_mut(&mut layout, name)?;
    edit::put(image, free, table, Sort::of(name), key, value)?;
    Ok(changed(image))
}

/// Removes a key.
pub fn remove(image: &mut [u8], scratch: &mut [u8], name: &[u8], key: &[u8]) -> Answer {
    answer(try_remove(image, scratch, name, key))
}

fn try_remove(
    image: &mut [u8],
    scratch: &mut [u8],
    name: &[u8],
    key: &[u8],
) -> Result<Answer, Refusal> {
    let mut layout = open(image, scratch)?;
    require(legal_name(name) && legal_key(name, key), Refusal::NameOrKey)?;
    let table = find_mut(&mut layout, name)?;
    require(table.value(key).is_some(), Refusal::NoSuchKey)?;
    edit::remove(image, table, Sort::of(name), key);
    Ok(changed(image))
}

/// Creates a table.
pub fn create(image: &mut [u8], scratch: &mut [u8], name: &[u8]) -> Answer {
    answer(try_create(image, scratch, name))
}

fn try_create(image: &mut [u8], scratch: &mut [u8], name: &[u8]) -> Result<Answer, Refusal> {
    let mut layout = open(image, scratch)?;
    require(legal_name(name), Refusal::NameOrKey)?;
    require(layout.find(name).is_none(), Refusal::TableExists)?;
    edit::create(image, &mut layout, name)?;
    Ok(changed(image))
}

/// Refusals 1 to 3. "The scratch's first 1024·P bytes are zero after every call but those refused
/// with 1 or 2, where nothing is written; its other bytes stay."
fn open(image: &[u8], scratch: &mut [u8]) -> Result<Layout, Refusal> {
    let length = image.len();
    require(page::pages_of(length).is_some(), Refusal::ImageLength)?;
    require(scratch.len() >= length, Refusal::ScratchShort)?;
    scratch[..length].fill(0);
    check::check(image).map_err(|_| Refusal::NotWellFormed)
}

/// The answer of a put, remove or create that is done but for the kept count: "Every successful put,
/// remove and create writes it true, even if it was 0" (document 02, T-06).
fn changed(image: &mut [u8]) -> Answer {
    free::keep_count(image);
    Answer::default()
}

/// The done answer, or that of the refusal.
fn answer(outcome: Result<Answer, Refusal>) -> Answer {
    outcome.unwrap_or_else(Answer::from)
}

fn require(holds: bool, refusal: Refusal) -> Result<(), Refusal> {
    if holds {
        Ok(())
    } else {
        Err(refusal)
    }
}

fn legal_name(name: &[u8]) -> bool {
    check::name_rules(name).is_empty()
}

/// "4 also for a key of another length under such a name, table there or not" (document 02, T-05):
/// whether the table of this name, if there is one, may hold the key.
fn legal_key(name: &[u8], key: &[u8]) -> bool {
    Sort::of(name).allows(key)
}

fn find<'a>(layout: &'a Layout, name: &[u8]) -> Result<&'a Table, Refusal> {
    let place = layout.find(name).ok_or(Refusal::NoSuchTable)?;
    Ok(&layout.tables[place].1)
}

fn find_mut<'a>(layout: &'a mut Layout, name: &[u8]) -> Result<&'a mut Table, Refusal> {
    let place = layout.find(name).ok_or(Refusal::NoSuchTable)?;
    Ok(&mut layout.tables[place].1)
}

/// "Get and next also return the length of the value or key and write it at the start of the
/// answer buffer and no more."
fn hand_over(data: &[u8], into: &mut [u8]) -> Result<Answer, Refusal> {
    let needed = data.len();
    require(into.len() >= needed, Refusal::AnswerShort { needed })?;
    into[..needed].copy_from_slice(data);
    Ok(Answer {
        length: needed as u64,
        ..Answer::default()
    })
}
