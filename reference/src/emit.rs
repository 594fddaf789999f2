//! Images in files, with the line that the program has to write for each.

use crate::fuzz;
use crate::generate::{self, Knobs};
use crate::page::{MAX_PAGES, PAGE};
use crate::program;
use crate::random::Random;
use crate::rule::Rule;
use std::fs;
use std::io;
use std::path::Path;

/// The name of the file with the expected lines.
pub const EXPECTED: &str = "expected.txt";

/// Writes `count` images into the folder, and the file of expected lines: the image's file name,
/// a space, the line.
pub fn emit(folder: &Path, seed: u64, count: u64) -> io::Result<()> {
    fs::create_dir_all(folder)?;
    let mut expected = String::new();
    for step in 0..count {
        let mut random = Random::new(seed.wrapping_add(step));
        let image = image(&mut random, step);
        let name = format!("{step:05}.card");
        fs::write(folder.join(&name), &image)?;
        expected.push_str(&format!("{name} {}\n", program::line(&image)));
    }
    fs::write(folder.join(EXPECTED), expected)
}

/// An image: every other one is damaged, the rules one after the other; some are longer than the
/// program reads, and some have a length that is none of an image.
fn image(random: &mut Random, step: u64) -> Vec<u8> {
    if step % 2 == 1 {
        let rule = Rule::ALL[(step / 2) as usize % Rule::ALL.len()];
        if let Some((_, image)) = short_damaged(random, rule) {
            return image;
        }
    }
    match random.below(20) {
        0 => generate::sample(random, &Knobs::mixed()).image,
        1 => odd_length(random),
        _ => generate::sample(random, &short()).image,
    }
}

/// Images of at most 32 pages.
fn short() -> Knobs {
    Knobs {
        pages: 4..=program::MOST / PAGE,
        ..Knobs::mixed()
    }
}

/// A damaged image that the program reads whole.
fn short_damaged(random: &mut Random, rule: Rule) -> Option<(generate::Sample, Vec<u8>)> {
    (0..50)
        .filter_map(|_| fuzz::damaged(random, rule))
        .find(|(_, image)| image.len() <= program::MOST)
}

/// Bytes of a length near a limit.
fn odd_length(random: &mut Random) -> Vec<u8> {
    let lengths = [
        0,
        1,
        3 * PAGE,
        4 * PAGE - 1,
        4 * PAGE + 1,
        program::MOST - 1,
        program::MOST,
        program::MOST + 1,
        (MAX_PAGES + 1) * PAGE,
    ];
    let length = *random.pick(&lengths);
    random.bytes(length)
}
