//! Lists of calls on images that keep the free count and on images that do not (document 02, T-06): with
//! few pages free or none, and with so many that the count goes over a byte's end; and what was reached.

use crate::creating;
use crate::entries::Entry;
use crate::generate::{self, Knobs, Sample};
use crate::layout::Layout;
use crate::ledger::Ledger;
use crate::page::{self, superblock, MAX_NUMBERS, SUPERBLOCK};
use crate::putting;
use crate::random::Random;
use crate::reached::{self, Cases, Made};
use crate::removing;
use crate::request::{Call, CallKind, Request};
use crate::script::{self, Script, Trend};
use std::ops::RangeInclusive;

/// How many calls a list has. It is small, since after the first change the count is kept.
const CALLS: usize = 4;

/// The numbers that each kind of call answers on a well-formed image.
const NUMBERS: [(CallKind, &[u32]); 6] = [
    (CallKind::Check, &[0, 2]),
    (CallKind::Get, &[0, 2, 4, 6, 8, 9]),
    (CallKind::Put, &[0, 2, 4, 5, 6, 10]),
    (CallKind::Remove, &[0, 2, 4, 6, 8]),
    (CallKind::Next, &[0, 2, 4, 6, 8, 9]),
    (CallKind::Create, &[0, 2, 4, 7, 10]),
];

/// By how many pages F changes in done calls that have to be reached.
const CHANGES: [(CallKind, RangeInclusive<i64>); 3] = [
    (CallKind::Put, -3..=3),
    (CallKind::Remove, 0..=3),
    (CallKind::Create, -5..=-3),
];

/// The figures before and after a done call that have to be reached: with no page free or few, and over
/// the end of a byte.
const FIGURES: [(u32, u32); 14] = [
    (0, 1),
    (0, 2),
    (0, 255),
    (0, 256),
    (1, 1),
    (1, 2),
    (1, 3),
    (2, 1),
    (2, 2),
    (3, 1),
    (4, 1),
    (255, 256),
    (256, 255),
    (256, 256),
];

/// All cases.
pub fn all() -> Vec<String> {
    let images = [reached::GARBAGE, reached::COUNT_KEPT, reached::NO_COUNT];
    let mut cases = images.map(str::to_owned).to_vec();
    for is_kept in [false, true] {
        for (kind, numbers) in NUMBERS {
            cases.extend(numbers.iter().map(|&one| answered(is_kept, kind, one)));
        }
        for (kind, changes) in CHANGES {
            cases.extend(changes.map(|more| changed(is_kept, kind, more)));
        }
        cases.push(replaced_by_equal(is_kept));
    }
    cases.extend(FIGURES.map(|(from, to)| figures(from, to)));
    cases
}

/// The case of a call of this kind with this number on an image that keeps the count, or does not.
fn answered(is_kept: bool, kind: CallKind, number: u32) -> String {
    format!("{}: {kind} {number}", named(is_kept))
}

/// The case of a done call after which so many pages more are free.
fn changed(is_kept: bool, kind: CallKind, more: i64) -> String {
    format!("{}: {kind} done, free pages {more:+}", named(is_kept))
}

fn replaced_by_equal(is_kept: bool) -> String {
    format!("{}: value replaced by an equal one", named(is_kept))
}

/// The case of a done call with these figures before and after it.
fn figures(from: u32, to: u32) -> String {
    format!("kept count {from} to {to}")
}

/// The cases of images that check accepts: that keep the count or do not, with pages free or none.
pub fn accepted() -> Vec<String> {
    let of_sort = |is_kept| [true, false].map(|is_full| checked(is_kept, is_full));
    [true, false].map(of_sort).concat()
}

/// The case of an accepted image, with F by check.
pub fn of_accepted(image: &[u8], free: u64) -> String {
    let kept = page::read_u32(image, SUPERBLOCK, superblock::KEPT_COUNT);
    checked(kept != 0, free == 0)
}

fn checked(is_kept: bool, is_full: bool) -> String {
    let free = if is_full { "no page" } else { "some pages" };
    format!("{}: accepted with {free} free", named(is_kept))
}

fn named(is_kept: bool) -> &'static str {
    match is_kept {
        true => "kept",
        false => "not kept",
    }
}

/// An image and a list of calls from a seed, and the cases that the list reaches.
pub fn script(seed: u64) -> (Script, Cases) {
    let mut random = Random::new(seed ^ 0x636f_756e_7469_6e67);
    let sample = image(&mut random);
    reached::list(&mut random, sample, CALLS, choose, of_call)
}

/// An image: some have no page free, some about 255, and in some the next name splits a span of the
/// metaindex.
fn image(random: &mut Random) -> Sample {
    let knobs = match random.below(100) {
        0..=9 => return generate::full(random, &Knobs::tiny_long()),
        10..=24 => return about_255_free(random),
        25..=39 => creating::full_metaindex(2, 2 * random.within(1..=2)),
        40..=54 => Knobs::towers_long(),
        55..=64 => Knobs::tiny_long(),
        _ => long_values(),
    };
    generate::sample(random, &knobs)
}

/// Images with many values over several pages, of which one put or remove gives some back.
fn long_values() -> Knobs {
    Knobs {
        pages: 10..=24,
        long: 45,
        long_length: 900..=4500,
        ..Knobs::tiny_long()
    }
}

/// An image with so many pages free that a call makes the kept count longer or shorter by a byte.
fn about_255_free(random: &mut Random) -> Sample {
    let sample = generate::sample(random, &Knobs::tiny_long());
    let count = MAX_NUMBERS - random.below(5);
    generate::with_first_block(random, sample, count)
}

/// A call of any kind, or one of those that change the image.
fn choose(random: &mut Random, layout: &Layout, ledger: &Ledger, _: usize) -> Request {
    let aimed = match random.below(10) {
        0 | 1 => put_again(random, layout),
        2 => putting::put(random, layout),
        3 => removing::remove(random, layout),
        4 => Some(creating::create(random, &layout.meta)),
        _ => None,
    };
    let call = aimed.unwrap_or_else(|| script::call(random, ledger.tables(), Trend::Mixed));
    script::with_buffers(random, ledger, call)
}

/// A put of a key that is there, if there is one, with the value that it has, or without its bytes.
fn put_again(random: &mut Random, layout: &Layout) -> Option<Call> {
    let tables = layout.tables.iter().filter(|(_, table)| table.keys() > 0);
    let tables: Vec<_> = tables.collect();
    if tables.is_empty() {
        return None;
    }
    let (name, table) = *random.pick(&tables);
    let place = random.below(table.keys());
    let Entry { key, mut value } = table.entries().nth(place)?.clone();
    if random.percent(50) {
        value.clear();
    }
    let name = name.clone();
    Some(Call::Put { name, key, value })
}

/// What a call reaches.
fn of_call(made: &Made<'_>) -> Vec<String> {
    let is_kept = made.before.count_kept;
    let kind = made.call.kind();
    let mut cases = vec![answered(is_kept, kind, made.number)];
    if made.number == 0 && made.call.changes() {
        let more = made.after.free_pages() as i64 - made.before.free_pages() as i64;
        cases.push(changed(is_kept, kind, more));
        cases.push(figures(made.before.kept_count(), made.after.kept_count()));
        if puts_again(made) {
            cases.push(replaced_by_equal(is_kept));
        }
    }
    cases
}

/// Whether a put gives a key the value that it has.
fn puts_again(made: &Made<'_>) -> bool {
    let Call::Put { name, key, value } = made.call else {
        return false;
    };
    let old = made.tables(name).and_then(|(old, _)| old.value(key));
    old.is_some_and(|old| old == value)
}
