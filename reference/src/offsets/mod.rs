//! Lists of calls on offset tables (document 02, T-05), and on tables whose names only have a "#":
//! with keys of other lengths, around the sign change, and near the ends of pages; and on tables that
//! the list creates, fills in one order and empties in another. What was reached is counted.

mod cases;

pub use cases::{all, before_page_end};

use crate::emptying;
use crate::entries::MAX_LENGTH;
use crate::generate::{self, Knobs, Sample, HASH_NAMES};
use crate::layout::{Layout, Table};
use crate::numbers;
use crate::page::MAX_NUMBERS;
use crate::putting;
use crate::random::Random;
use crate::reached::{self, Cases};
use crate::request::Call;
use crate::script::{self, Script, Trend};
use crate::sort::Sort;

/// How many calls a list has that does not create its table.
const CALLS: usize = 10;

/// The lengths of keys that an offset table may not hold, but for longer ones.
const OTHER_LENGTHS: [usize; 5] = [0, 1, 2, 3, 5];

/// An image and a list of calls from a seed, and the cases that the list reaches.
pub fn script(seed: u64) -> (Script, Cases) {
    let mut random = Random::new(seed ^ 0x6f66_6673_6574_7321);
    if random.percent(10) {
        return filled(&mut random);
    }
    let sample = image(&mut random);
    reached::list(
        &mut random,
        sample,
        CALLS,
        |random, layout, ledger, _| {
            let call = match random.percent(85) {
                true => aimed(random, layout),
                false => script::call(random, ledger.tables(), Trend::Mixed),
            };
            script::with_buffers(random, ledger, call)
        },
        cases::of_call,
    )
}

/// An image with a table whose name has a "#".
fn image(random: &mut Random) -> Sample {
    loop {
        let sample = any_image(random);
        let names = &sample.layout.tables;
        if names.iter().any(|(name, _)| name.contains(&b'#')) {
            return sample;
        }
    }
}

fn any_image(random: &mut Random) -> Sample {
    let knobs = match random.below(100) {
        0..=3 => return putting::spans_of_128(random),
        4..=23 => return full_spans(random),
        24..=25 => Knobs::many_small(),
        26..=33 => Knobs::towers_long(),
        34..=40 => Knobs::odd_towers(),
        41..=70 => emptying::page_ends(),
        71..=80 => Knobs::tiny_long(),
        _ => Knobs::tiny(),
    };
    generate::sample(random, &knobs)
}

/// An image with one table of few small spans that are all full.
fn full_spans(random: &mut Random) -> Sample {
    let spans = random.within(1..=9);
    let size = *random.pick(&[2, 3]);
    let max = *random.pick(&[1, 12, MAX_NUMBERS, MAX_NUMBERS]);
    let free = random.within(0..=6);
    generate::full_spans(random, spans, size, max, free)
}

/// A call on a table whose name has a "#", that is there or not.
fn aimed(random: &mut Random, layout: &Layout) -> Call {
    let name = name(random, layout);
    let table = layout.find(&name).map(|place| &layout.tables[place].1);
    let sort = Sort::of(&name);
    let key = key(random, sort, table);
    match random.below(20) {
        0..=6 => Call::Put {
            value: value(random, layout, sort, table, &key),
            name,
            key,
        },
        7..=9 => Call::Remove { name, key },
        10..=13 => Call::Get { name, key },
        14..=17 => Call::Next { name, key },
        18 => Call::Next {
            name,
            key: Vec::new(),
        },
        _ => Call::Create { name },
    }
}

/// A name with a "#": mostly of a table.
fn name(random: &mut Random, layout: &Layout) -> Vec<u8> {
    let names = layout.tables.iter().map(|(name, _)| name);
    let there: Vec<_> = names.filter(|name| name.contains(&b'#')).collect();
    match there.is_empty() || random.percent(25) {
        true => random.pick(&HASH_NAMES).to_vec(),
        false => random.pick(&there).to_vec(),
    }
}

/// A key that is there, one beside it, any, or one of another length.
fn key(random: &mut Random, sort: Sort, table: Option<&Table>) -> Vec<u8> {
    let there = table.and_then(|table| key_there(random, sort, table));
    let there = there.unwrap_or_else(|| generate::key(random, sort, &Knobs::tiny()));
    match random.below(10) {
        0 | 1 => of_other_length(random, there),
        2 => generate::key(random, sort, &Knobs::tiny()),
        3 => numbers::any_key(random),
        4 | 5 => numbers::beside(random, &there),
        _ => there,
    }
}

/// A key of the table, if it has one; those at the end of a page are chosen more often.
fn key_there(random: &mut Random, sort: Sort, table: &Table) -> Option<Vec<u8>> {
    let keys: Vec<&[u8]> = table.entries().map(|entry| entry.key.as_slice()).collect();
    let at_end = keys.iter().copied();
    let at_end: Vec<&[u8]> = at_end
        .filter(|key| before_page_end(sort, table, key).is_some())
        .collect();
    let keys = match at_end.is_empty() || random.percent(50) {
        true => keys,
        false => at_end,
    };
    (!keys.is_empty()).then(|| random.pick(&keys).to_vec())
}

/// A key that an offset table may not hold, cut or lengthened from another; some begin with "#".
fn of_other_length(random: &mut Random, mut key: Vec<u8>) -> Vec<u8> {
    let longer = *random.pick(&[6, 7, 8, 255, 1024, MAX_LENGTH, MAX_LENGTH + 1]);
    let length = match random.percent(85) {
        true => *random.pick(&OTHER_LENGTHS),
        false => longer,
    };
    key.resize(length, *random.pick(&[0x00, 0x80, 0xff]));
    if let Some(first) = key.first_mut() {
        if random.percent(20) {
            *first = b'#';
        }
    }
    key
}

/// A value: near the end of a page, of any length, or too long; that often with a key that the table
/// may not hold.
fn value(
    random: &mut Random,
    layout: &Layout,
    sort: Sort,
    table: Option<&Table>,
    key: &[u8],
) -> Vec<u8> {
    let length = match table {
        Some(table) if sort.allows(key) && random.percent(97) => {
            putting::value_length(random, layout, sort, table, key)
        }
        _ => *random.pick(&[0, 4, MAX_LENGTH, MAX_LENGTH + 1]),
    };
    random.bytes(length)
}

/// In what order a new table is filled.
#[derive(Clone, Copy, Debug, PartialEq, Eq)]
enum Filling {
    Ascending,
    Descending,
    /// Numbers above and below 0 by turns, ever farther from it.
    BySigns,
    /// Numbers above and below 0 by turns, ever nearer to it.
    Inwards,
    Random,
}

impl Filling {
    const ALL: [Filling; 5] = [
        Filling::Ascending,
        Filling::Descending,
        Filling::BySigns,
        Filling::Inwards,
        Filling::Random,
    ];

    /// Brings rising numbers into the order.
    fn arrange(self, random: &mut Random, numbers: &mut [i32]) {
        match self {
            Filling::Ascending => {}
            Filling::Descending => numbers.reverse(),
            Filling::BySigns => numbers.sort_by_key(|number| number.unsigned_abs()),
            Filling::Inwards => numbers.sort_by_key(|number| u32::MAX - number.unsigned_abs()),
            Filling::Random => random.shuffle(numbers),
        }
    }
}

/// An image without tables, and a list that creates one, fills it, goes through its keys and empties
/// it.
fn filled(random: &mut Random) -> (Script, Cases) {
    let knobs = Knobs {
        pages: 30..=60,
        tables: 0..=0,
        span_sizes: vec![2, 3, 3, 4, 16],
        crowded: 0,
        ..Knobs::tiny()
    };
    let sample = generate::sample(random, &knobs);
    let name = *random.pick(&HASH_NAMES);
    let filling = *random.pick(&Filling::ALL);
    let count = random.within(6..=20);
    let calls = life(random, name, filling, count);
    reached::list(
        random,
        sample,
        calls.len(),
        |random, _, ledger, step| script::with_buffers(random, ledger, calls[step].clone()),
        |made| {
            let mut cases = cases::of_call(made);
            cases.extend(cases::of_filling(made, filling, count));
            cases
        },
    )
}

/// A create, puts of so many numbers on both sides of 0, nexts from the empty key on, a check, and
/// removes.
fn life(random: &mut Random, name: &[u8], filling: Filling, count: usize) -> Vec<Call> {
    let stride = *random.pick(&[1, 3, 0x0100_0000]);
    let half = count as i32 / 2;
    let rising: Vec<i32> = (-half..count as i32 - half).map(|n| n * stride).collect();
    let mut arranged = rising.clone();
    filling.arrange(random, &mut arranged);
    let mut removed = rising.clone();
    Filling::ALL[random.below(Filling::ALL.len())].arrange(random, &mut removed);

    let name = name.to_vec();
    let next = |key| Call::Next {
        name: name.clone(),
        key,
    };
    let mut calls = vec![Call::Create { name: name.clone() }];
    for number in arranged {
        let length = random.below(80);
        calls.push(Call::Put {
            name: name.clone(),
            key: numbers::key(number),
            value: random.bytes(length),
        });
    }
    calls.push(next(Vec::new()));
    calls.extend(rising.iter().map(|&number| next(numbers::key(number))));
    calls.push(Call::Check);
    calls.extend(removed.iter().map(|&number| Call::Remove {
        name: name.clone(),
        key: numbers::key(number),
    }));
    calls
}
