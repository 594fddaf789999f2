//! Random calls, refused ones among them, on the tables of an image.

use crate::entries::{Place, MAX_LENGTH};
use crate::generate::{self, Knobs, Sample};
use crate::ledger::{tables_of, Ledger, Map, Tables};
use crate::numbers;
use crate::page::PAGE;
use crate::random::Random;
use crate::request::{Call, CallKind, Request};
use crate::sort::Sort;

/// What most calls of a list do.
#[derive(Clone, Copy, Debug, PartialEq, Eq)]
pub enum Trend {
    Mixed,
    Filling,
    Draining,
}

/// An image and the calls to run on it, one after the other.
#[derive(Clone, Debug)]
pub struct Script {
    pub sample: Sample,
    pub requests: Vec<Request>,
}

impl Trend {
    pub fn any(random: &mut Random) -> Trend {
        *random.pick(&[Trend::Mixed, Trend::Mixed, Trend::Filling, Trend::Draining])
    }
}

/// An image of any kind and a list of calls from a seed.
pub fn script(seed: u64, calls: usize) -> Script {
    let mut random = Random::new(seed);
    let knobs = Knobs::any(&mut random);
    script_on(&mut random, &knobs, calls)
}

/// An image of the kind wanted and a list of calls. Each call is made with the tables that the
/// calls before it leave, by this program.
pub fn script_on(random: &mut Random, knobs: &Knobs, calls: usize) -> Script {
    let sample = generate::sample(random, knobs);
    let trend = Trend::any(random);
    let mut image = sample.image.clone();
    let pages = u64::from(sample.layout.pages);
    let mut ledger = Ledger::new(pages, tables_of(&sample.layout));
    let mut requests = Vec::new();
    for _ in 0..calls {
        let request = request(random, &ledger, trend);
        let (mut scratch, mut answer) = request.buffers();
        let number = request.run(&mut image, &mut scratch, &mut answer).number;
        ledger.feed(&request, number == 10);
        requests.push(request);
    }
    Script { sample, requests }
}

/// One random call on an image whose tables the ledger knows.
pub fn request(random: &mut Random, ledger: &Ledger, trend: Trend) -> Request {
    let call = call(random, ledger.tables(), trend);
    with_buffers(random, ledger, call)
}

/// The call with a scratch and an answer buffer that are mostly long enough.
pub fn with_buffers(random: &mut Random, ledger: &Ledger, call: Call) -> Request {
    let needed = PAGE * ledger.pages() as usize;
    let scratch_length = match random.below(40) {
        0 => needed - 1,
        1 => random.below(needed),
        2..=11 => needed + random.below(3000),
        _ => needed,
    };
    Request {
        answer_length: answer_length(random, ledger.tables(), &call),
        call,
        scratch_length,
        fill: random.next_u64(),
    }
}

/// A length for the answer buffer: short, just enough or more.
fn answer_length(random: &mut Random, tables: &Tables, call: &Call) -> usize {
    let length = match call {
        Call::Get { name, key } => tables.get(name).and_then(|map| map.get(key)).map(Vec::len),
        Call::Next { name, key } => next_length(tables, name, key),
        _ => return 0,
    };
    let needed = length.unwrap_or(0);
    match random.below(10) {
        0 => needed.saturating_sub(1),
        1 => random.below(needed + 1),
        2..=5 => needed,
        6..=8 => needed + random.below(100),
        _ => MAX_LENGTH,
    }
}

fn next_length(tables: &Tables, name: &[u8], key: &[u8]) -> Option<usize> {
    let keys = tables.get(name)?.keys().map(Vec::as_slice);
    Sort::of(name).above(keys, key).map(<[u8]>::len)
}

/// A call on these tables, of a kind by the trend.
pub fn call(random: &mut Random, tables: &Tables, trend: Trend) -> Call {
    let weights: [usize; 6] = match trend {
        Trend::Mixed => [5, 20, 35, 20, 15, 5],
        Trend::Filling => [2, 8, 70, 5, 5, 10],
        Trend::Draining => [2, 8, 10, 70, 8, 2],
    };
    let kind = match tables.is_empty() && random.percent(30) {
        true => CallKind::Create,
        false => weighted(random, &weights),
    };
    let name = name(random, tables, kind == CallKind::Create);
    let (sort, map) = (Sort::of(&name), tables.get(&name));
    match kind {
        CallKind::Check => Call::Check,
        CallKind::Create => Call::Create { name },
        CallKind::Get => {
            let key = key(random, sort, map, 70);
            Call::Get { name, key }
        }
        CallKind::Next => {
            let key = next_key(random, sort, map);
            Call::Next { name, key }
        }
        CallKind::Remove => {
            let key = key(random, sort, map, 85);
            Call::Remove { name, key }
        }
        CallKind::Put => {
            let there = if trend == Trend::Filling { 15 } else { 40 };
            let key = key(random, sort, map, there);
            let value = value(random, key.len());
            Call::Put { name, key, value }
        }
    }
}

/// One of the kinds of call, by these weights.
fn weighted(random: &mut Random, weights: &[usize; 6]) -> CallKind {
    let mut rest = random.below(weights.iter().sum());
    for (kind, &weight) in CallKind::ALL.into_iter().zip(weights) {
        if rest < weight {
            return kind;
        }
        rest -= weight;
    }
    CallKind::Check
}

/// A table name: mostly of a table, sometimes of none, sometimes not legal.
fn name(random: &mut Random, tables: &Tables, new: bool) -> Vec<u8> {
    if random.percent(4) {
        return bad_name(random);
    }
    let of_table = if new { 15 } else { 94 };
    if tables.is_empty() || !random.percent(of_table) {
        return generate::name(random);
    }
    let place = random.below(tables.len());
    tables.keys().nth(place).cloned().unwrap_or_default()
}

/// A name that no table can have.
fn bad_name(random: &mut Random) -> Vec<u8> {
    let mut name = generate::name(random);
    match random.below(4) {
        0 => name.clear(),
        1 => name.resize(256, b'a'),
        _ => {
            let at = random.below(name.len());
            name[at] = *random.pick(&[0x00, 0x20, 0x7f, 0x80, 0xff]);
        }
    }
    name
}

/// A key: of a hundred, so many that are there; else one near to these, a new one, or one that is
/// not legal.
fn key(random: &mut Random, sort: Sort, map: Option<&Map>, there: usize) -> Vec<u8> {
    match random.below(100) {
        0 => return Vec::new(),
        1 => return vec![b'k'; MAX_LENGTH + 1 + random.below(2)],
        2 => return vec![*random.pick(&[0x00, 0x80, 0xff]); MAX_LENGTH],
        _ => {}
    }
    let near = map.and_then(|map| {
        let place = random.below(map.len().max(1));
        map.keys().nth(place).cloned()
    });
    match near {
        Some(key) if random.percent(there) => key,
        Some(key) if sort == Sort::Numbers && random.percent(50) => numbers::beside(random, &key),
        Some(key) if random.percent(60) => changed(random, key),
        _ => generate::key(random, sort, &Knobs::mixed()),
    }
}

/// A key near to another: longer, shorter or with another last byte.
fn changed(random: &mut Random, mut key: Vec<u8>) -> Vec<u8> {
    let byte = *random.pick(&[0x00, 0x01, 0x7f, 0x80, 0xff]);
    match random.below(3) {
        0 => key.push(byte),
        1 if key.len() > 1 => {
            key.pop();
        }
        _ => {
            if let Some(last) = key.last_mut() {
                *last = byte;
            }
        }
    }
    key
}

/// A key for next, which may be empty.
fn next_key(random: &mut Random, sort: Sort, map: Option<&Map>) -> Vec<u8> {
    if random.percent(20) {
        return Vec::new();
    }
    key(random, sort, map, 60)
}

/// A value: mostly short, sometimes such that it ends near the end of a page if its entry is the
/// first of a span, rarely of the greatest length or beyond.
fn value(random: &mut Random, key: usize) -> Vec<u8> {
    let length = match random.below(100) {
        0 => MAX_LENGTH + 1 + random.below(2),
        1 => MAX_LENGTH,
        2..=26 => {
            let at = Place::START.after_entry(key, 0);
            generate::length_to_page_end(random, at)
        }
        27..=36 => random.below(6000),
        37..=46 => 0,
        _ => random.below(60),
    };
    random.bytes(length)
}
