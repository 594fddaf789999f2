//! Another program beside the reference: the same images and calls, with every number and every
//! byte compared.

pub mod cases;
pub mod programs;
pub mod tally;

use crate::calls::Answer;
use crate::check::check;
use crate::counting;
use crate::creating;
use crate::emptying;
use crate::entries::Entry;
use crate::fuzz::{Failure, CALLS};
use crate::generate::Knobs;
use crate::layout::Layout;
use crate::ledger::{tables_of, Ledger, Said};
use crate::offsets;
use crate::page::pages_of;
use crate::pairs::neighbours::{self, Neighbours};
use crate::pairs::offsets::{self as number_pairs, ROW};
use crate::pairs::{self, Card, Pair, Row, Trial, SERIALS};
use crate::putting;
use crate::random::Random;
use crate::reached::{count, Cases};
use crate::reading;
use crate::removing;
use crate::request::{CallKind, Request};
use crate::script::{self, Script};
use programs::{Outcome, Program, REFERENCE};
use tally::{add_all, Called, Tally};

/// A comparison of both programs on `count` seeds from `seed` on.
pub type Compare = fn(&Program, u64, u64) -> Result<Tally, Failure>;

/// A comparison that is aimed at certain cases.
pub struct Aimed {
    /// Compares both programs.
    pub compare: Compare,
    /// The cases that enough seeds reach.
    pub cases: fn() -> Vec<String>,
    /// One seed is run where so many of another kind are: some have more calls.
    pub one_in: u64,
}

/// The comparisons that are aimed at certain cases.
pub const AIMED: [Aimed; 8] = [
    Aimed {
        compare: put_lists,
        cases: putting::all,
        one_in: 1,
    },
    Aimed {
        compare: remove_lists,
        cases: removing::all,
        one_in: 1,
    },
    Aimed {
        compare: create_lists,
        cases: creating::all,
        one_in: 1,
    },
    Aimed {
        compare: empty_lists,
        cases: emptying::all,
        one_in: 4,
    },
    Aimed {
        compare: offset_lists,
        cases: offsets::all,
        one_in: 1,
    },
    Aimed {
        compare: count_lists,
        cases: counting::all,
        one_in: 1,
    },
    Aimed {
        compare: key_pairs,
        cases: neighbours::all,
        one_in: 1,
    },
    Aimed {
        compare: offset_pairs,
        cases: number_pairs::all,
        one_in: 1,
    },
];

/// Checks `count` images by both programs, for the seeds from `seed` on, and makes another call on
/// each.
pub fn images(program: &Program, seed: u64, count: u64) -> Result<Tally, Failure> {
    let mut tally = Tally::default();
    for seed in seeds(seed, count) {
        let case = cases::case(seed);
        let compare = |request: &Request| {
            let outcome = compare_call(program, &case.image, request);
            outcome.map_err(|what| Failure {
                seed,
                what: format!("{} on {:?}: {what}", request.call.kind(), case.source),
            })
        };
        let checked = compare(&case.check)?.answer;
        self::count(&mut tally.images, [(case.source, checked.number)]);
        if checked.number == 0 {
            let accepted = counting::of_accepted(&case.image, checked.free);
            self::count(&mut tally.cases, [accepted]);
        }
        let number = compare(&case.other)?.answer.number;
        let kind = case.other.call.kind();
        *tally.calls.entry((kind, number)).or_default() += 1;
        let pages = pages_of(case.image.len()).unwrap_or(0);
        *tally.sizes.entry(pages).or_default() += 1;
    }
    Ok(tally)
}

/// Runs `count` lists of calls by both programs, for the seeds from `seed` on: the lists that
/// `fuzz` runs.
pub fn lists(program: &Program, seed: u64, count: u64) -> Result<Tally, Failure> {
    all_lists(program, seeds(seed, count), |seed| {
        script::script(seed, CALLS)
    })
}

/// How many calls a long list has.
const LONG: usize = 250;

/// Runs `count` long lists of calls by both programs, for the seeds from `seed` on: on images with
/// small spans and much room, so that tables grow and shrink by many spans and towers.
pub fn long_lists(program: &Program, seed: u64, count: u64) -> Result<Tally, Failure> {
    let knobs = Knobs {
        pages: 60..=300,
        span_sizes: vec![2, 3, 4],
        near_page_end: 5,
        long: 2,
        crowded: 0,
        ..Knobs::mixed()
    };
    all_lists(program, seeds(seed, count), |seed| {
        script::script_on(&mut Random::new(seed), &knobs, LONG)
    })
}

/// How many calls a list of gets and nexts has.
const READS: usize = 6;

/// Runs `count` lists of gets and nexts by both programs, for the seeds from `seed` on: with names
/// and keys near to those that the images have.
pub fn read_lists(program: &Program, seed: u64, count: u64) -> Result<Tally, Failure> {
    all_lists(program, seeds(seed, count), |seed| {
        reading::near(seed, READS)
    })
}

/// Runs gets and nexts by both programs with names and keys of `count` lengths from `first` on.
pub fn lengths(program: &Program, first: u64, count: u64) -> Result<Tally, Failure> {
    all_lists(program, seeds(first, count), |length| {
        reading::of_length(length as usize)
    })
}

/// Of the lengths of keys that are put and read, one in so many.
const STRIDE: u64 = 31;

/// Runs puts, gets and nexts by both programs with keys of `count` lengths, each `STRIDE` above the
/// one before, from `1 + STRIDE * first` on.
pub fn present_lengths(program: &Program, first: u64, count: u64) -> Result<Tally, Failure> {
    all_lists(program, seeds(first, count), |step| {
        reading::present((1 + STRIDE * step) as usize)
    })
}

/// Runs `count` lists of puts among gets, nexts and checks by both programs, for the seeds from
/// `seed` on, and counts what they reach.
pub fn put_lists(program: &Program, seed: u64, count: u64) -> Result<Tally, Failure> {
    aimed_lists(program, seeds(seed, count), putting::script)
}

/// Runs `count` lists of removes among puts, gets, nexts and checks by both programs, for the seeds
/// from `seed` on, and counts what they reach.
pub fn remove_lists(program: &Program, seed: u64, count: u64) -> Result<Tally, Failure> {
    aimed_lists(program, seeds(seed, count), removing::script)
}

/// Runs `count` lists over all six calls by both programs, for the seeds from `seed` on, and counts
/// what they reach.
pub fn create_lists(program: &Program, seed: u64, count: u64) -> Result<Tally, Failure> {
    aimed_lists(program, seeds(seed, count), creating::script)
}

/// Runs `count` lists that empty a full card by both programs, for the seeds from `seed` on, and
/// counts what they reach.
pub fn empty_lists(program: &Program, seed: u64, count: u64) -> Result<Tally, Failure> {
    ended_lists(
        program,
        seeds(seed, count),
        emptying::script,
        emptying::nothing_left,
    )
}

/// Runs `count` lists on tables whose names have a "#" by both programs, for the seeds from `seed` on,
/// and counts what they reach.
pub fn offset_lists(program: &Program, seed: u64, count: u64) -> Result<Tally, Failure> {
    aimed_lists(program, seeds(seed, count), offsets::script)
}

/// Runs `count` lists on images that keep the free count or do not by both programs, for the seeds from
/// `seed` on, and counts what they reach.
pub fn count_lists(program: &Program, seed: u64, count: u64) -> Result<Tally, Failure> {
    aimed_lists(program, seeds(seed, count), counting::script)
}

/// Makes the calls of `count` pairs of keys by both programs, from pair `first` on, and counts what
/// they cover.
pub fn key_pairs(program: &Program, first: u64, count: u64) -> Result<Tally, Failure> {
    let numbers = seeds(first, count);
    all_pairs(program, numbers, &SERIALS, pairs::pair, |entries, tally| {
        let neighbours = Neighbours::of(entries);
        self::count(&mut tally.cases, neighbours.cases());
        self::count(&mut tally.pairs, neighbours.covered());
    })
}

/// Makes the calls of `count` pairs of numbers in an offset table by both programs, from pair `first`
/// on, and counts what they reach.
pub fn offset_pairs(program: &Program, first: u64, count: u64) -> Result<Tally, Failure> {
    let numbers = seeds(first, count);
    all_pairs(
        program,
        numbers,
        &ROW,
        number_pairs::pair,
        |entries, tally| {
            self::count(&mut tally.cases, number_pairs::cases(entries));
        },
    )
}

/// Makes the calls of these pairs in a table by both programs; of each check's entries it is counted
/// what they reach.
fn all_pairs(
    program: &Program,
    numbers: impl Iterator<Item = u64>,
    row: &Row,
    pair: fn(u64) -> Pair,
    reached: fn(&[Entry], &mut Tally),
) -> Result<Tally, Failure> {
    let mut tally = Tally::default();
    let mut card = pairs::card(row);
    for seed in numbers {
        let pair = pair(seed);
        for trial in pair.trials(row) {
            let is_check = trial.request.call.kind() == CallKind::Check;
            let outcome = self::trial(program, &mut card, trial, &mut tally.calls);
            outcome.map_err(|what| Failure {
                seed,
                what: format!("{what}, with {pair:?}"),
            })?;
            if is_check {
                reached(card.entries(), &mut tally);
            }
        }
    }
    Ok(tally)
}

/// Makes one call with a pair of keys by both programs, and counts it.
fn trial(
    program: &Program,
    card: &mut Card,
    trial: Trial,
    called: &mut Called,
) -> Result<(), String> {
    let kind = trial.request.call.kind();
    let at = |what| format!("a {kind}: {what}");
    let image = card.with(trial.entries);
    let outcome = compare_call(program, image, &trial.request).map_err(at)?;
    as_said(&outcome, &trial.said).map_err(at)?;
    count(called, [(kind, outcome.answer.number)]);
    Ok(())
}

/// `count` seeds from the first one on.
fn seeds(first: u64, count: u64) -> impl Iterator<Item = u64> {
    (0..count).map(move |step| first.wrapping_add(step))
}

/// Runs the lists of these seeds by both programs.
fn all_lists(
    program: &Program,
    seeds: impl Iterator<Item = u64>,
    script: impl Fn(u64) -> Script,
) -> Result<Tally, Failure> {
    aimed_lists(program, seeds, |seed| (script(seed), Cases::new()))
}

/// Runs the lists of these seeds by both programs, and counts what they reach.
fn aimed_lists(
    program: &Program,
    seeds: impl Iterator<Item = u64>,
    script: impl Fn(u64) -> (Script, Cases),
) -> Result<Tally, Failure> {
    ended_lists(program, seeds, script, |_| Ok(()))
}

/// The same, with what has to hold of the layout that each list leaves.
fn ended_lists(
    program: &Program,
    seeds: impl Iterator<Item = u64>,
    script: impl Fn(u64) -> (Script, Cases),
    holds: impl Fn(&Layout) -> Result<(), String>,
) -> Result<Tally, Failure> {
    let mut tally = Tally::default();
    for seed in seeds {
        let (script, cases) = script(seed);
        let left = list(program, &script, &mut tally.calls);
        let outcome = left.and_then(|layout| holds(&layout));
        outcome.map_err(|what| Failure { seed, what })?;
        add_all(&mut tally.cases, cases);
    }
    Ok(tally)
}

/// Runs one list of calls by both programs and feeds the ledger; gives the layout that it leaves.
pub fn list(program: &Program, script: &Script, called: &mut Called) -> Result<Layout, String> {
    let layout = &script.sample.layout;
    let mut ledger = Ledger::new(u64::from(layout.pages), tables_of(layout));
    let mut image = script.sample.image.clone();
    for (step, request) in script.requests.iter().enumerate() {
        let kind = request.call.kind();
        let at = |what| format!("call {step}, a {kind}: {what}");
        let outcome = compare_call(program, &image, request).map_err(at)?;
        let number = outcome.answer.number;
        let said = ledger.feed(request, number == 10);
        as_said(&outcome, &said).map_err(at)?;
        *called.entry((kind, number)).or_default() += 1;
        image = outcome.image;
    }
    let layout = check(&image).map_err(|broken| format!("after the list: {}", broken[0]))?;
    match tables_of(&layout) == *ledger.tables() {
        true => Ok(layout),
        false => Err("the tables after the list are not the ledger's".to_owned()),
    }
}

/// Runs a call by the reference and, if it has the call, by the program; the outcome of both.
fn compare_call(program: &Program, image: &[u8], request: &Request) -> Result<Outcome, String> {
    let expected = REFERENCE.run(image, request).expect("all six calls");
    match program.run(image, request) {
        None => Ok(expected),
        Some(given) => expected.same_as(&given).map(|()| given),
    }
}

/// Whether an outcome is what is said of the call.
fn as_said(outcome: &Outcome, said: &Said) -> Result<(), String> {
    let answer = Answer {
        number: said.number,
        length: said.length,
        pages: said.pages,
        tables: said.tables,
        keys: said.keys,
        free: outcome.answer.free,
    };
    match outcome.answer == answer && outcome.buffer.starts_with(&said.bytes) {
        true => Ok(()),
        false => Err(format!("{:?}, but it has to be {said:?}", outcome.answer)),
    }
}
