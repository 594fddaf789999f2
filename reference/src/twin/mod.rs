//! The twin: the six calls over lent memory, written for speed.
//!
//! It does the same job as the verified library with the same means, no heap, no unsafe code and
//! a few kilobytes of stack, so that the library's time can be set beside that of plain Rust. The
//! scratch has the heads of the pages while the image is verified; put, remove and create then stage
//! the pages of a span in it.

#![forbid(unsafe_code)]

mod edit;
mod entry;
mod free;
mod order;
mod page;
mod plan;
mod search;
mod stage;
mod verify;

use crate::calls::{Answer, Refusal};
use crate::entries::MAX_LENGTH;
use crate::sort::Sort;
use entry::Run;
pub use order::{ByteLoop, Order, Slices};
use order::{Keys, Numbers};
use page::Page;
use search::Table;
use verify::{legal_name, Counts};

/// Checks an image.
pub fn check(image: &[u8], scratch: &mut [u8]) -> Answer {
    check_by::<Slices>(image, scratch)
}

/// Checks an image, with this comparison of keys.
pub fn check_by<O: Order>(image: &[u8], scratch: &mut [u8]) -> Answer {
    let answer = open::<O>(image, scratch).map(|(pages, counts)| Answer {
        pages: pages.len() as u64,
        tables: counts.tables,
        keys: counts.keys,
        free: counts.free,
        ..Answer::default()
    });
    answer.unwrap_or_else(Answer::from)
}

/// The value of a key.
pub fn get(image: &[u8], scratch: &mut [u8], name: &[u8], key: &[u8], into: &mut [u8]) -> Answer {
    get_by::<Slices, Slices>(image, scratch, name, key, into)
}

/// The value of a key, with one comparison of keys in the check that it begins with and another in the
/// search.
pub fn get_by<C: Order, S: Order>(
    image: &[u8],
    scratch: &mut [u8],
    name: &[u8],
    key: &[u8],
    into: &mut [u8],
) -> Answer {
    let entry = match Sort::of(name) {
        Sort::Bytes => Table::entry::<S>,
        Sort::Numbers => Table::entry::<Numbers>,
    };
    let value = |pages: &[Page], table: Table| Some(entry(&table, pages, key)?.value);
    let read = read::<C, S>(image, scratch, name, legal_key(name, key), value, into);
    read.unwrap_or_else(Answer::from)
}

/// The smallest key above the one asked.
pub fn next(image: &[u8], scratch: &mut [u8], name: &[u8], key: &[u8], into: &mut [u8]) -> Answer {
    next_by::<Slices, Slices>(image, scratch, name, key, into)
}

/// The smallest key above the one asked, with comparisons of keys as in `get_by`.
pub fn next_by<C: Order, S: Order>(
    image: &[u8],
    scratch: &mut [u8],
    name: &[u8],
    key: &[u8],
    into: &mut [u8],
) -> Answer {
    let above = match Sort::of(name) {
        Sort::Bytes => Table::above::<S>,
        Sort::Numbers => Table::above::<Numbers>,
    };
    let above = |pages: &[Page], table: Table| above(&table, pages, key);
    let legal_key = key.is_empty() || legal_key(name, key);
    let read = read::<C, S>(image, scratch, name, legal_key, above, into);
    read.unwrap_or_else(Answer::from)
}

/// The answer of a get or a next: what `find` gives of the table of this name, if name and key are legal.
fn read<C: Order, S: Order>(
    image: &[u8],
    scratch: &mut [u8],
    name: &[u8],
    legal_key: bool,
    find: impl Fn(&[Page], Table) -> Option<Run>,
    into: &mut [u8],
) -> Result<Answer, Refusal> {
    let (pages, _) = open::<C>(image, scratch)?;
    require(legal_name(name) && legal_key, Refusal::NameOrKey)?;
    let table = Table::named::<S>(pages, name).ok_or(Refusal::NoSuchTable)?;
    let found = find(pages, table).ok_or(Refusal::NoSuchKey)?;
    hand_over(pages, found, into)
}

/// Puts a value under a key.
pub fn put(image: &mut [u8], scratch: &mut [u8], name: &[u8], key: &[u8], value: &[u8]) -> Answer {
    let put = match Sort::of(name) {
        Sort::Bytes => try_put::<Slices>,
        Sort::Numbers => try_put::<Numbers>,
    };
    let free = put(image, scratch, name, key, value);
    done(image, free)
}

fn try_put<K: Keys>(
    image: &mut [u8],
    scratch: &mut [u8],
    name: &[u8],
    key: &[u8],
    value: &[u8],
) -> Result<u64, Refusal> {
    let (pages, counts) = open::<Slices>(image, scratch)?;
    require(legal_name(name) && legal_key(name, key), Refusal::NameOrKey)?;
    require(value.len() <= MAX_LENGTH, Refusal::ValueLength)?;
    let table = Table::named::<Slices>(pages, name).ok_or(Refusal::NoSuchTable)?;
    let (pages, staged) = lent(image, scratch);
    edit::put::<K>(pages, staged, counts.free, table, key, value)
}

/// Removes a key.
pub fn remove(image: &mut [u8], scratch: &mut [u8], name: &[u8], key: &[u8]) -> Answer {
    let remove = match Sort::of(name) {
        Sort::Bytes => try_remove::<Slices>,
        Sort::Numbers => try_remove::<Numbers>,
    };
    let free = remove(image, scratch, name, key);
    done(image, free)
}

fn try_remove<K: Keys>(
    image: &mut [u8],
    scratch: &mut [u8],
    name: &[u8],
    key: &[u8],
) -> Result<u64, Refusal> {
    let (pages, counts) = open::<Slices>(image, scratch)?;
    require(legal_name(name) && legal_key(name, key), Refusal::NameOrKey)?;
    let table = Table::named::<Slices>(pages, name).ok_or(Refusal::NoSuchTable)?;
    let (pages, staged) = lent(image, scratch);
    edit::remove::<K>(pages, staged, counts.free, table, key)
}

/// Creates a table.
pub fn create(image: &mut [u8], scratch: &mut [u8], name: &[u8]) -> Answer {
    let free = try_create(image, scratch, name);
    done(image, free)
}

fn try_create(image: &mut [u8], scratch: &mut [u8], name: &[u8]) -> Result<u64, Refusal> {
    let (_, counts) = open::<Slices>(image, scratch)?;
    require(legal_name(name), Refusal::NameOrKey)?;
    let (pages, staged) = lent(image, scratch);
    edit::create(pages, staged, counts.free, name)
}

/// Refusals 1 to 3; the scratch is zero over the length of the image but with 1 and 2.
fn open<'a, O: Order>(
    image: &'a [u8],
    scratch: &mut [u8],
) -> Result<(&'a [Page], Counts), Refusal> {
    let pages = page::pages(image).ok_or(Refusal::ImageLength)?;
    let scratch = scratch.get_mut(..image.len());
    let scratch = scratch.ok_or(Refusal::ScratchShort)?;
    let (heads, behind) = page::heads(scratch, pages.len());
    let counts = verify::verify::<O>(pages, heads, behind);
    scratch.fill(0);
    let counts = counts.ok_or(Refusal::NotWellFormed)?;
    Ok((pages, counts))
}

/// The pages of an accepted image to be written, and as many pages of the scratch.
fn lent<'a>(image: &'a mut [u8], scratch: &'a mut [u8]) -> (&'a mut [Page], &'a mut [Page]) {
    let staged = &mut scratch[..image.len()];
    (page::pages_mut(image), page::pages_mut(staged))
}

/// The answer of a put, remove or create, from F after it: where it is done, this count is kept.
fn done(image: &mut [u8], free: Result<u64, Refusal>) -> Answer {
    match free {
        Ok(free) => {
            free::keep_count(page::pages_mut(image), free);
            Answer::default()
        }
        Err(refusal) => Answer::from(refusal),
    }
}

fn require(holds: bool, refusal: Refusal) -> Result<(), Refusal> {
    match holds {
        true => Ok(()),
        false => Err(refusal),
    }
}

fn legal_key(name: &[u8], key: &[u8]) -> bool {
    Sort::of(name).allows(key)
}

/// Copies the answer to the start of the buffer.
fn hand_over(pages: &[Page], answer: Run, into: &mut [u8]) -> Result<Answer, Refusal> {
    let needed = answer.length;
    require(into.len() >= needed, Refusal::AnswerShort { needed })?;
    answer.copy_to(pages, into);
    Ok(Answer {
        length: needed as u64,
        ..Answer::default()
    })
}
