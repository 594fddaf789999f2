//! Lists of calls that are aimed at certain cases, and how often each case was reached.

use crate::check::check;
use crate::encode;
use crate::entries::Place;
use crate::generate::{Sample, NEAR_END};
use crate::layout::{Layout, Table};
use crate::ledger::{tables_of, Ledger};
use crate::random::Random;
use crate::request::{Call, CallKind, Request};
use crate::script::{self, Script, Trend};
use crate::sort::Sort;
use std::collections::BTreeMap;

/// How often each case was reached.
pub type Cases = BTreeMap<String, u64>;

/// The case of an image whose unused bytes are not all 0.
pub const GARBAGE: &str = "garbage in unused bytes";
/// The case of an image that keeps the free count.
pub const COUNT_KEPT: &str = "free count kept at first";
/// The case of an image that does not keep it.
pub const NO_COUNT: &str = "free count not kept at first";

/// A call that was made by this program, with the layouts before and after it.
pub struct Made<'a> {
    pub call: &'a Call,
    pub number: u32,
    pub before: &'a Layout,
    pub after: &'a Layout,
}

impl Made<'_> {
    /// The table of this name before and after the call, if it was there before.
    pub fn tables(&self, name: &[u8]) -> Option<(&Table, &Table)> {
        let old = self.before.find(name)?;
        let new = self.after.find(name)?;
        Some((&self.before.tables[old].1, &self.after.tables[new].1))
    }
}

/// The cases that hold, of these.
pub fn held(cases: &[(&str, bool)]) -> Vec<String> {
    let held = cases.iter().filter(|(_, holds)| *holds);
    held.map(|(case, _)| (*case).to_owned()).collect()
}

/// A list of `calls` calls on an image, and the cases that it reaches. Each call is chosen, with its
/// buffers, by what the calls before it leave.
pub fn list(
    random: &mut Random,
    sample: Sample,
    calls: usize,
    choose: impl Fn(&mut Random, &Layout, &Ledger, usize) -> Request,
    mut reached: impl FnMut(&Made<'_>) -> Vec<String>,
) -> (Script, Cases) {
    let mut cases = Cases::new();
    count(&mut cases, of_image(&sample));
    let mut image = sample.image.clone();
    let mut layout = sample.layout.clone();
    let mut ledger = Ledger::new(u64::from(layout.pages), tables_of(&layout));
    let mut requests = Vec::new();
    for step in 0..calls {
        let request = choose(random, &layout, &ledger, step);
        let (mut scratch, mut answer) = request.buffers();
        let number = request.run(&mut image, &mut scratch, &mut answer).number;
        ledger.feed(&request, number == 10);
        let after = after(&request, number, &image);
        let made = Made {
            call: &request.call,
            number,
            before: &layout,
            after: after.as_ref().unwrap_or(&layout),
        };
        count(&mut cases, reached(&made));
        layout = after.unwrap_or(layout);
        requests.push(request);
    }
    (Script { sample, requests }, cases)
}

/// The layout after a call, if the call may have changed it.
fn after(request: &Request, number: u32, image: &[u8]) -> Option<Layout> {
    let changed = number == 0 && request.call.changes();
    changed.then(|| check(image).expect("well-formed after every call"))
}

/// Counts each of these once more.
pub(crate) fn count<K: Ord>(counts: &mut BTreeMap<K, u64>, reached: impl IntoIterator<Item = K>) {
    for one in reached {
        *counts.entry(one).or_default() += 1;
    }
}

/// What the image of a list is like.
fn of_image(sample: &Sample) -> Vec<String> {
    let is_kept = sample.layout.count_kept;
    held(&[
        (GARBAGE, has_garbage(sample)),
        (COUNT_KEPT, is_kept),
        (NO_COUNT, !is_kept),
    ])
}

/// Whether bytes that the layout does not say are not 0.
fn has_garbage(sample: &Sample) -> bool {
    let mut bare = vec![0; sample.image.len()];
    encode::layout(&mut bare, &sample.layout);
    bare != sample.image
}

/// How a call is chosen: mostly an aimed one, else any but of these kinds; a check where there is
/// nothing to aim at.
pub fn mostly(
    aim: fn(&mut Random, &Layout) -> Option<Call>,
    without: &[CallKind],
) -> impl Fn(&mut Random, &Layout, &Ledger, usize) -> Request + '_ {
    move |random, layout, ledger, _| {
        let any = match random.percent(60) {
            true => None,
            false => Some(script::call(random, ledger.tables(), Trend::Mixed)),
        };
        let wanted = any.filter(|call| !without.contains(&call.kind()));
        let call = wanted.or_else(|| aim(random, layout));
        script::with_buffers(random, ledger, call.unwrap_or(Call::Check))
    }
}

/// These cases, those of the ends of pages, and more.
pub fn with_page_ends(fixed: &[&str], more: impl Iterator<Item = String>) -> Vec<String> {
    let fixed = fixed.iter().map(|case| (*case).to_owned());
    fixed
        .chain((0..NEAR_END).map(left_before))
        .chain(more)
        .collect()
}

/// Where the entries of the key's span lie on its pages.
pub fn of_entries(table: &Table, sort: Sort, key: &[u8]) -> Vec<String> {
    let mut cases = Vec::new();
    let mut place = Place::START;
    for entry in &table.spans[table.target(sort, key)].entries {
        if place.left() < NEAR_END {
            cases.push(left_before(place.left()));
        }
        let key_at = place.lengths().after(4);
        let value_at = key_at.after(entry.key.len());
        place = value_at.after(entry.value.len());
        let is_new = entry.key == key;
        cases.extend(held(&[
            (
                "the new key over a page end",
                is_new && value_at.page > key_at.page,
            ),
            (
                "the new value over a page end",
                is_new && place.page > value_at.page,
            ),
        ]));
    }
    cases
}

/// The case of an entry that begins where so many bytes are left on the page.
fn left_before(left: usize) -> String {
    format!("{left} bytes left before an entry")
}

/// What the free list was like where pages were wanted.
pub fn of_taking(before: &Layout, after: &Layout) -> Vec<String> {
    let (had, has) = (before.free_pages(), after.free_pages());
    let empty = before.free.first().is_some_and(|one| one.listed.is_empty());
    held(&[
        (
            "page taken from several blocks",
            has < had && before.free.len() > 1,
        ),
        ("an empty block taken", has < had && empty),
        ("the last free page taken", has == 0 && had > 0),
        ("done with no page free", had == 0),
    ])
}
