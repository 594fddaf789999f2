//! Images to check, with the requests to run on them, from a seed.

use crate::damage;
use crate::generate::{self, Knobs, Sample};
use crate::ledger::{tables_of, Ledger, Tables};
use crate::page::{MARKS, MAX_PAGES, MIN_PAGES, PAGE};
use crate::random::Random;
use crate::request::{Call, Request};
use crate::rule::Rule;
use crate::script::{self, Trend};

/// How an image that is checked was made.
#[derive(Clone, Copy, Debug, PartialEq, Eq, PartialOrd, Ord)]
pub enum Source {
    /// Well-formed.
    Sound,
    /// Damaged for a rule.
    Damaged(Rule),
    /// Well-formed, with some bytes set anew.
    SetAnew,
    /// Random links under right marks.
    Noise,
    /// Cut or lengthened by some bytes.
    OddLength,
}

/// An image, the check to run on it, and another call.
#[derive(Clone, Debug, PartialEq, Eq)]
pub struct Case {
    pub source: Source,
    pub image: Vec<u8>,
    pub check: Request,
    pub other: Request,
}

/// The case of this seed: every other image is damaged, the rules one after the other; some
/// scratches are short, and some images have an odd length.
pub fn case(seed: u64) -> Case {
    let mut random = Random::new(seed ^ 0x636f_6d70_6172_6521);
    let (source, image, tables) = match seed % 2 {
        1 => {
            let rule = Rule::ALL[(seed / 2) as usize % Rule::ALL.len()];
            damaged(&mut random, rule)
        }
        _ => other_image(&mut random),
    };
    let ledger = Ledger::new(MIN_PAGES as u64, tables);
    let trend = Trend::any(&mut random);
    let other = script::request(&mut random, &ledger, trend);
    let mut request = |call, answer_length| Request {
        call,
        // By the image, not by the ledger's P.
        scratch_length: scratch_length(&mut random, image.len()),
        answer_length,
        fill: random.next_u64(),
    };
    Case {
        check: request(Call::Check, 0),
        other: request(other.call, other.answer_length),
        source,
        image,
    }
}

/// The length of a scratch for an image of this length: just enough, more, or short.
fn scratch_length(random: &mut Random, needed: usize) -> usize {
    match random.below(20) {
        0 => needed.saturating_sub(1),
        1 => random.below(needed + 1),
        2..=7 => needed + random.below(3000),
        _ => needed,
    }
}

/// An image with how it was made and the tables that it has, or had.
type Made = (Source, Vec<u8>, Tables);

/// A damaged image; where none can be made, a well-formed one.
fn damaged(random: &mut Random, rule: Rule) -> Made {
    for _ in 0..400 {
        let sample = sample(random);
        if let Some(image) = damage::damage(random, &sample, rule) {
            return (Source::Damaged(rule), image, tables_of(&sample.layout));
        }
    }
    other_image(random)
}

/// An image that was not damaged for a rule.
fn other_image(random: &mut Random) -> Made {
    let sample = sample(random);
    let tables = tables_of(&sample.layout);
    match random.below(20) {
        0..=2 => {
            let image = damage::set_bytes_anew(random, &sample);
            (Source::SetAnew, image, tables)
        }
        3 => (Source::Noise, noise(random), tables),
        4 => (Source::OddLength, odd_length(random, sample), tables),
        _ => (Source::Sound, sample.image, tables),
    }
}

/// A well-formed image of any kind and size; one in a few hundred is as small or as large as can
/// be.
fn sample(random: &mut Random) -> Sample {
    let sized = |pages, knobs| Knobs {
        pages: pages..=pages,
        crowded: 0,
        ..knobs
    };
    let knobs = match random.below(300) {
        0 => sized(MIN_PAGES, Knobs::tiny()),
        1 => sized(MAX_PAGES, Knobs::big()),
        _ => Knobs::any(random),
    };
    generate::sample(random, &knobs)
}

/// Pages with random marks and with links to near pages.
fn noise(random: &mut Random) -> Vec<u8> {
    let pages = random.within(MIN_PAGES..=40);
    let mut image = generate::sample(random, &Knobs::tiny()).image;
    image.resize(PAGE * pages, 0);
    for page in image.chunks_mut(PAGE).skip(2) {
        let mark = random.pick(&MARKS).1;
        page[..mark.len()].copy_from_slice(mark);
        for number in page[8..].chunks_mut(4) {
            let near = random.below(pages + 2) as u32;
            number.copy_from_slice(&near.to_be_bytes());
        }
    }
    let length = (PAGE * pages) as u64;
    image[8..16].copy_from_slice(&length.to_be_bytes());
    image[28..32].fill(0);
    image
}

/// A well-formed image with bytes cut off or added, or bytes of a length near a limit.
fn odd_length(random: &mut Random, sample: Sample) -> Vec<u8> {
    let limits = [0, 1, PAGE, 3 * PAGE, 4 * PAGE - 1, (MAX_PAGES + 1) * PAGE];
    if random.percent(30) {
        return vec![0x5a; *random.pick(&limits)];
    }
    let mut image = sample.image;
    let length = match random.below(4) {
        0 => image.len() + 1,
        1 => image.len() - 1,
        2 => image.len() + random.below(2 * PAGE),
        _ => random.below(image.len()),
    };
    image.resize(length, 0);
    image
}
