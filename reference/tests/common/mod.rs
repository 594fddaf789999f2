//! Images written by hand, and short ways to make calls.
#![allow(dead_code)]

use reference::calls::{self, Answer};
use reference::check::check;
use reference::compare::programs::Program;
use reference::compare::tally::{cases_table, Tally};
use reference::compare::Compare;
use reference::layout::{Layout, Table};
use reference::pairs::neighbours::all_covered;
use std::thread;

/// Writes bytes at an offset of a page.
pub fn write(image: &mut [u8], page: usize, offset: usize, bytes: &[u8]) {
    let at = 1024 * (page - 1) + offset;
    image[at..at + bytes.len()].copy_from_slice(bytes);
}

/// The bytes at an offset of a page.
pub fn read(image: &[u8], page: u32, offset: usize, count: usize) -> &[u8] {
    let at = 1024 * (page as usize - 1) + offset;
    &image[at..at + count]
}

/// An image with an empty metaindex on pages 2 to 4, and page 5 a free-list block listing the
/// pages from 6 on in rising order. The free count is not kept. Unused bytes hold 0xa5.
pub fn card(pages: usize, span_size: u8) -> Vec<u8> {
    assert!((5..=257).contains(&pages));
    let mut image = vec![0xa5; 1024 * pages];
    write(&mut image, 1, 0, b"1A\xdeI2P\x01\x02");
    write(&mut image, 1, 8, &(1024 * pages as u64).to_be_bytes());
    write(
        &mut image,
        1,
        16,
        &[0, 0, 0, 5, 0, 0, 0, span_size, 0, 0, 4, 0, 0, 0, 0, 0],
    );
    write(&mut image, 2, 0, b"SkipList");
    write(&mut image, 2, 8, &[0, 0, 0, 3, 0, 0, 0, 4]);
    write(
        &mut image,
        2,
        16,
        &[0, 0, 0, 0, 0, 0, 0, 1, 0, 0, 0, 1, 0, 16],
    );
    write(&mut image, 3, 0, b"Span");
    write(&mut image, 3, 4, &[0; 12]);
    write(&mut image, 3, 16, &[0, 16, 0, 0]);
    write(&mut image, 4, 0, b"BSLevels");
    write(&mut image, 4, 8, &[0, 12, 0, 0, 0, 0, 0, 3]);
    write(&mut image, 5, 0, b"#frList#");
    write(&mut image, 5, 8, &[0; 4]);
    write(&mut image, 5, 12, &(pages as u32 - 5).to_be_bytes());
    for page in 6..=pages {
        write(
            &mut image,
            5,
            16 + 4 * (page - 6),
            &(page as u32).to_be_bytes(),
        );
        write(&mut image, page, 0, b"~!FREE!~");
    }
    image
}

pub fn layout(image: &[u8]) -> Layout {
    check(image).expect("well-formed")
}

pub fn table(image: &[u8], name: &[u8]) -> Table {
    let layout = layout(image);
    let place = layout.find(name).expect("the table is there");
    layout.tables[place].1.clone()
}

pub fn put(image: &mut [u8], name: &[u8], key: &[u8], value: &[u8]) -> u32 {
    let mut scratch = vec![0; image.len()];
    calls::put(image, &mut scratch, name, key, value).number
}

pub fn remove(image: &mut [u8], name: &[u8], key: &[u8]) -> u32 {
    let mut scratch = vec![0; image.len()];
    calls::remove(image, &mut scratch, name, key).number
}

pub fn create(image: &mut [u8], name: &[u8]) -> u32 {
    let mut scratch = vec![0; image.len()];
    calls::create(image, &mut scratch, name).number
}

/// The number and the bytes that a get answers.
pub fn get(image: &[u8], name: &[u8], key: &[u8]) -> (u32, Vec<u8>) {
    let mut scratch = vec![0; image.len()];
    let mut buffer = vec![0; 65_535];
    let answer = calls::get(image, &mut scratch, name, key, &mut buffer);
    answered(&answer, buffer)
}

/// The number and the bytes that a next answers.
pub fn next(image: &[u8], name: &[u8], key: &[u8]) -> (u32, Vec<u8>) {
    let mut scratch = vec![0; image.len()];
    let mut buffer = vec![0; 65_535];
    let answer = calls::next(image, &mut scratch, name, key, &mut buffer);
    answered(&answer, buffer)
}

fn answered(answer: &Answer, mut buffer: Vec<u8>) -> (u32, Vec<u8>) {
    buffer.truncate(answer.length as usize);
    (answer.number, buffer)
}

/// The pages on which two images differ.
pub fn pages_changed(before: &[u8], after: &[u8]) -> Vec<usize> {
    let pairs = before.chunks(1024).zip(after.chunks(1024)).enumerate();
    pairs
        .filter(|(_, (old, new))| old != new)
        .map(|(place, _)| place + 1)
        .collect()
}

/// Compares a program on `count` seeds from `first` on, in two threads.
pub fn in_two(program: &Program, first: u64, count: u64, compare: Compare) -> Tally {
    let half = count / 2;
    let run = |seed, count| {
        let tally = compare(program, seed, count);
        tally.unwrap_or_else(|failure| panic!("seed {}: {}", failure.seed, failure.what))
    };
    thread::scope(|scope| {
        let other = scope.spawn(|| run(first + half, count - half));
        let mut tally = run(first, half);
        tally.add(other.join().expect("no difference"));
        tally
    })
}

/// Whether aimed lists reached each of these cases.
pub fn assert_reached(tally: &Tally, cases: &[String]) {
    println!("{}", cases_table(&tally.cases, cases));
    for case in cases {
        assert!(tally.cases.contains_key(case), "{case}");
    }
}

/// Whether pairs of keys covered all that they have to.
pub fn assert_covered(tally: &Tally) {
    let all = all_covered();
    println!("{} of {} covered", tally.pairs.len(), all.len());
    for one in all {
        assert!(tally.pairs.contains_key(&one), "{one:?}");
    }
}
