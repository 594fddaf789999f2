//! Gets and nexts with names and keys of any length, near to those that an image has.

use crate::entries::MAX_LENGTH;
use crate::generate::{self, Knobs, Sample};
use crate::ledger::{tables_of, Ledger, Tables};
use crate::numbers;
use crate::page::PAGE;
use crate::random::Random;
use crate::request::{Call, Request};
use crate::script::Script;
use crate::sort::Sort;

/// The greatest length of a name or key that is asked with.
pub const LONGEST: usize = 70_000;

/// The bytes that names and keys are lengthened with: on both sides of a signed byte's zero, and
/// one that a name may have.
const BYTES: [u8; 5] = [0x00, 0x7f, 0x80, 0xff, b'a'];

/// An image of any kind and gets and nexts on it, from a seed.
pub fn near(seed: u64, calls: usize) -> Script {
    let mut random = Random::new(seed);
    let knobs = match random.below(40) {
        0 => Knobs::few_large(),
        1..=5 => Knobs::mixed(),
        6..=8 => Knobs::full_of_towers(),
        9..=10 => Knobs::many_small(),
        _ => Knobs::tiny(),
    };
    let sample = generate::sample(&mut random, &knobs);
    let tables = tables_of(&sample.layout);
    let calls = (0..calls).map(|_| any_read(&mut random, &tables)).collect();
    reads_on(&mut random, sample, calls)
}

/// Gets and a next with a name or a key of this length, on a small image.
pub fn of_length(length: usize) -> Script {
    let mut random = Random::new(length as u64);
    let sample = generate::sample(&mut random, &Knobs::tiny());
    let tables = tables_of(&sample.layout);
    let name = some_name(&mut random, &tables);
    let key = some_key(&mut random, &tables, &name);
    let other_name = resized(&mut random, name.clone(), length);
    let other_key = resized(&mut random, key.clone(), length);
    let calls = vec![
        get(&name, &other_key),
        next(&name, &other_key),
        get(&other_name, &key),
    ];
    reads_on(&mut random, sample, calls)
}

/// A key of this length that is put, with two that it is a prefix of, and reads of these keys and
/// of their neighbours. The image has room for them.
pub fn present(length: usize) -> Script {
    let mut random = Random::new(length as u64);
    let pages = 20 + 3 * (length + MAX_LENGTH / 8) / 1000;
    let knobs = Knobs {
        pages: pages..=pages,
        tables: 0..=0,
        crowded: 0,
        ..Knobs::tiny()
    };
    let sample = generate::sample(&mut random, &knobs);
    let name = vec![b'a'; 1 + length % 255];
    let key = random.bytes(length);
    let longer = |byte| [key.as_slice(), &[byte]].concat();
    let (above, last) = (longer(0x7f), longer(0x80));
    let put = |key: &[u8], length| Call::Put {
        name: name.clone(),
        key: key.to_vec(),
        value: vec![0x5a; length],
    };
    let calls = vec![
        Call::Create { name: name.clone() },
        put(&last, 0),
        put(&key, random.below(MAX_LENGTH / 8)),
        put(&above, 1),
        get(&name, &key),
        get(&name, &above),
        get(&name, &key[..length - 1]),
        next(&name, &[]),
        next(&name, &key[..length - 1]),
        next(&name, &key),
        next(&name, &above),
        next(&name, &last),
    ];
    reads_on(&mut random, sample, calls)
}

/// A get.
pub fn get(name: &[u8], key: &[u8]) -> Call {
    let (name, key) = (name.to_vec(), key.to_vec());
    Call::Get { name, key }
}

/// A next.
pub fn next(name: &[u8], key: &[u8]) -> Call {
    let (name, key) = (name.to_vec(), key.to_vec());
    Call::Next { name, key }
}

/// The calls with scratches, and with answer buffers of about the lengths needed.
fn reads_on(random: &mut Random, sample: Sample, calls: Vec<Call>) -> Script {
    let pages = u64::from(sample.layout.pages);
    let mut ledger = Ledger::new(pages, tables_of(&sample.layout));
    let mut request = |call| {
        let mut request = Request {
            call,
            scratch_length: PAGE * pages as usize,
            answer_length: MAX_LENGTH,
            fill: random.next_u64(),
        };
        let needed = ledger.feed(&request, false).length as usize;
        request.answer_length = answer_length(random, needed);
        request.scratch_length += *random.pick(&[0, 0, 1, 700]);
        request
    };
    Script {
        requests: calls.into_iter().map(&mut request).collect(),
        sample,
    }
}

/// Just enough, one short, none, or more.
fn answer_length(random: &mut Random, needed: usize) -> usize {
    match random.below(8) {
        0 => needed.saturating_sub(1),
        1 => 0,
        2 => needed + 1,
        3 => needed + random.below(3000),
        _ => needed,
    }
}

fn any_read(random: &mut Random, tables: &Tables) -> Call {
    let there = some_name(random, tables);
    let key = some_key(random, tables, &there);
    let name = match random.below(20) {
        0..=1 => near_to(random, there),
        _ => there,
    };
    let key = match random.below(10) {
        0..=3 => key,
        4 => Vec::new(),
        5..=7 if Sort::of(&name) == Sort::Numbers => numbers::beside(random, &key),
        _ => near_to(random, key),
    };
    match random.percent(50) {
        true => get(&name, &key),
        false => next(&name, &key),
    }
}

/// The name of a table, or any where there is none.
fn some_name(random: &mut Random, tables: &Tables) -> Vec<u8> {
    let place = random.below(tables.len().max(1));
    let there = tables.keys().nth(place).cloned();
    there.unwrap_or_else(|| generate::name(random))
}

/// A key of the table, or any where it has none.
fn some_key(random: &mut Random, tables: &Tables, name: &[u8]) -> Vec<u8> {
    let map = tables.get(name);
    let place = random.below(map.map_or(0, |map| map.len()).max(1));
    let there = map.and_then(|map| map.keys().nth(place).cloned());
    there.unwrap_or_else(|| generate::key(random, Sort::of(name), &Knobs::mixed()))
}

/// Cut, lengthened, or with another byte.
fn near_to(random: &mut Random, mut bytes: Vec<u8>) -> Vec<u8> {
    if random.percent(40) && !bytes.is_empty() {
        let at = random.below(bytes.len());
        bytes[at] = *random.pick(&BYTES);
        return bytes;
    }
    let limits = [0, 1, 254, 255, 256, MAX_LENGTH, MAX_LENGTH + 1, LONGEST];
    let length = match random.below(10) {
        0 => *random.pick(&limits),
        1 => random.within(0..=LONGEST),
        2..=5 => random.below(bytes.len() + 1),
        _ => bytes.len() + random.below(4),
    };
    resized(random, bytes, length)
}

fn resized(random: &mut Random, mut bytes: Vec<u8>, length: usize) -> Vec<u8> {
    bytes.resize(length, *random.pick(&BYTES));
    bytes
}
