//! Lists of random calls and damaged images, with every check that this program has of itself.

use crate::audit;
use crate::calls::Answer;
use crate::check::check;
use crate::compare::tally::add_all;
use crate::counting;
use crate::damage;
use crate::emptying;
use crate::events;
use crate::generate::{self, Knobs, Sample};
use crate::layout::Layout;
use crate::ledger::{tables_of, Ledger, Said};
use crate::legal;
use crate::offsets;
use crate::page;
use crate::random::Random;
use crate::reached::Cases;
use crate::request::{CallKind, Request};
use crate::rule::Rule;
use crate::script::{self, Script, Trend};
use crate::towers::agree;
use std::collections::BTreeMap;

/// How many calls a list has.
pub const CALLS: usize = 20;

/// What was run.
#[derive(Clone, Debug, Default)]
pub struct Tally {
    /// Calls by kind and number.
    pub calls: BTreeMap<(CallKind, u32), u64>,
    /// What happened in done calls.
    pub events: BTreeMap<&'static str, u64>,
    /// What the lists that empty full cards reached.
    pub emptying: Cases,
    /// What the lists on offset tables reached.
    pub offsets: Cases,
    /// What the lists about the free count reached.
    pub counting: Cases,
    /// What the searches by towers reached.
    pub searches: Cases,
    /// Damaged images by rule.
    pub damaged: BTreeMap<Rule, Damaged>,
    /// Images with some bytes set anew that were accepted, and that were rejected.
    pub set_anew: (u64, u64),
}

/// Images damaged for one rule.
#[derive(Clone, Copy, Debug, Default)]
pub struct Damaged {
    pub images: u64,
    /// Those rejected with this rule among the broken ones.
    pub reported: u64,
    /// Those rejected with this rule alone.
    pub alone: u64,
}

/// A seed for which something does not hold.
#[derive(Clone, Debug)]
pub struct Failure {
    pub seed: u64,
    pub what: String,
}

/// Runs `count` lists of each kind, damaged images and images that are searched, for the seeds from `seed`
/// on.
pub fn fuzz(seed: u64, count: u64) -> Result<Tally, Failure> {
    let mut tally = Tally::default();
    for seed in (0..count).map(|step| seed.wrapping_add(step)) {
        let failure = |what| Failure { seed, what };
        run_list(script::script(seed, CALLS), &mut tally).map_err(failure)?;
        run_emptying(seed, &mut tally).map_err(failure)?;
        run_offsets(seed, &mut tally).map_err(failure)?;
        run_counting(seed, &mut tally).map_err(failure)?;
        run_damage(seed, &mut tally).map_err(failure)?;
        add_all(&mut tally.searches, agree::searches(seed, 1)?);
    }
    Ok(tally)
}

/// The list of this seed that empties a full card.
fn run_emptying(seed: u64, tally: &mut Tally) -> Result<(), String> {
    let (script, cases) = emptying::script(seed);
    let left = run_list(script, tally).map_err(|what| format!("emptying, {what}"))?;
    emptying::nothing_left(&left)?;
    add_all(&mut tally.emptying, cases);
    Ok(())
}

/// The list of this seed on offset tables.
fn run_offsets(seed: u64, tally: &mut Tally) -> Result<(), String> {
    let (script, cases) = offsets::script(seed);
    run_list(script, tally).map_err(|what| format!("offsets, {what}"))?;
    add_all(&mut tally.offsets, cases);
    Ok(())
}

/// The list of this seed about the free count.
fn run_counting(seed: u64, tally: &mut Tally) -> Result<(), String> {
    let (script, cases) = counting::script(seed);
    run_list(script, tally).map_err(|what| format!("counting, {what}"))?;
    add_all(&mut tally.counting, cases);
    Ok(())
}

/// Runs a list of calls; gives the layout that it leaves.
fn run_list(script: Script, tally: &mut Tally) -> Result<Layout, String> {
    let Script {
        mut sample,
        requests,
    } = script;
    accepted(&sample)?;
    let pages = u64::from(sample.layout.pages);
    let mut ledger = Ledger::new(pages, tables_of(&sample.layout));
    for (step, request) in requests.iter().enumerate() {
        let before = sample.layout.clone();
        let answer = run_call(&mut sample, &mut ledger, request)
            .map_err(|what| format!("call {step}, a {}: {what}", request.call.kind()))?;
        let kind = (request.call.kind(), answer.number);
        *tally.calls.entry(kind).or_default() += 1;
        if answer.number == 0 && request.call.changes() {
            for event in events::events(&before, &sample.layout) {
                *tally.events.entry(event).or_default() += 1;
            }
        }
    }
    Ok(sample.layout)
}

/// The image is well-formed and says its layout.
pub fn accepted(sample: &Sample) -> Result<(), String> {
    let layout = check(&sample.image).map_err(|broken| format!("rejected: {}", broken[0]))?;
    if layout != sample.layout {
        return Err("the image says another layout".to_owned());
    }
    verdicts_agree(&sample.image)
}

/// The walk's verdict is that of the rules said over layouts.
pub fn verdicts_agree(image: &[u8]) -> Result<(), String> {
    let (one, other) = (check(image).is_ok(), legal::well_formed(image));
    if one == other {
        return Ok(());
    }
    Err(format!(
        "well-formed by the walk: {one}, by the layout: {other}"
    ))
}

/// Runs one call and checks its answer, the buffers and the image; the sample and the ledger are
/// then those after the call.
pub fn run_call(
    sample: &mut Sample,
    ledger: &mut Ledger,
    request: &Request,
) -> Result<Answer, String> {
    let mut image = sample.image.clone();
    let (mut scratch, mut buffer) = request.buffers();
    let answer = request.run(&mut image, &mut scratch, &mut buffer);
    let said = ledger.feed(request, answer.number == 10);
    let layout = audit::audit(sample, request, &answer, &image)?;
    same_answer(&answer, &said, &layout)?;
    buffers_right(request, &answer, &said, &scratch, &buffer, image.len())?;
    if tables_of(&layout) != *ledger.tables() {
        return Err("the tables are not the ledger's".to_owned());
    }
    *sample = Sample { image, layout };
    Ok(answer)
}

/// "F is not in the ledger: it is that of the image check got."
fn same_answer(answer: &Answer, said: &Said, layout: &Layout) -> Result<(), String> {
    let is_check = said.pages != 0;
    let expected = Answer {
        number: said.number,
        length: said.length,
        pages: said.pages,
        tables: said.tables,
        keys: said.keys,
        free: if is_check {
            layout.free_pages() as u64
        } else {
            0
        },
    };
    if *answer == expected {
        return Ok(());
    }
    Err(format!("{answer:?}, but by the ledger {expected:?}"))
}

/// What scratch and answer buffer hold after the call.
fn buffers_right(
    request: &Request,
    answer: &Answer,
    said: &Said,
    scratch: &[u8],
    buffer: &[u8],
    image_length: usize,
) -> Result<(), String> {
    let (mut old_scratch, mut old_buffer) = request.buffers();
    if !matches!(answer.number, 1 | 2) {
        old_scratch[..image_length].fill(0);
    }
    old_buffer[..said.bytes.len()].copy_from_slice(&said.bytes);
    if old_scratch != scratch {
        return Err("the scratch is not as it has to be".to_owned());
    }
    if old_buffer != buffer {
        return Err("the answer buffer is not as it has to be".to_owned());
    }
    Ok(())
}

/// One image damaged for one rule, and one with some bytes set anew.
fn run_damage(seed: u64, tally: &mut Tally) -> Result<(), String> {
    let rule = Rule::ALL[(seed % Rule::ALL.len() as u64) as usize];
    let mut random = Random::new(!seed);
    let (sample, image) = damaged(&mut random, rule)
        .ok_or_else(|| format!("no image could be damaged for {rule}"))?;
    let count = tally.damaged.entry(rule).or_default();
    count.images += 1;
    let Err(broken) = check(&image) else {
        return Err(format!("accepted, though damaged for {rule}"));
    };
    if !broken.iter().any(|one| one.rule == rule) {
        return Err(format!("{rule} not reported, but {}", broken[0]));
    }
    count.reported += 1;
    count.alone += u64::from(broken.iter().all(|one| one.rule == rule));
    verdicts_agree(&image)?;
    let pages = u64::from(sample.layout.pages);
    let ledger = Ledger::new(pages, tables_of(&sample.layout));
    for trend in [Trend::Mixed, Trend::Filling, Trend::Draining] {
        let request = script::request(&mut random, &ledger, trend);
        let answer = refuses(&image, &request)?;
        let kind = (request.call.kind(), answer.number);
        *tally.calls.entry(kind).or_default() += 1;
    }
    let changed = damage::set_bytes_anew(&mut random, &sample);
    verdicts_agree(&changed)?;
    match check(&changed) {
        Ok(_) => tally.set_anew.0 += 1,
        Err(_) => tally.set_anew.1 += 1,
    }
    Ok(())
}

/// An image damaged for the rule, and the well-formed one it was made of.
pub fn damaged(random: &mut Random, rule: Rule) -> Option<(Sample, Vec<u8>)> {
    for _ in 0..200 {
        let knobs = match random.below(10) {
            0..=2 => Knobs::tiny(),
            3 | 4 => Knobs::many_small(),
            5 | 6 => Knobs::full_of_towers(),
            7 => Knobs::long_free_list(),
            _ => Knobs::mixed(),
        };
        let sample = generate::sample(random, &knobs);
        if let Some(image) = damage::damage(random, &sample, rule) {
            return Some((sample, image));
        }
    }
    None
}

/// A call on an image that is not well-formed is refused with 1, 2 or 3 and writes nothing but
/// the scratch.
fn refuses(image: &[u8], request: &Request) -> Result<Answer, String> {
    let number = match page::pages_of(image.len()) {
        None => 1,
        Some(_) if request.scratch_length < image.len() => 2,
        Some(_) => 3,
    };
    let mut copy = image.to_vec();
    let (mut scratch, mut buffer) = request.buffers();
    let answer = request.run(&mut copy, &mut scratch, &mut buffer);
    let refused = Answer {
        number,
        ..Answer::default()
    };
    if answer != refused || copy != image {
        return Err(format!("{answer:?} for a damaged image, not {number}"));
    }
    let (said, length) = (Said::default(), image.len());
    buffers_right(request, &answer, &said, &scratch, &buffer, length)?;
    Ok(answer)
}
