//! Sample cards: small images in files, each with the line that the program has to write for it.

use crate::calls;
use crate::check::check;
use crate::encode;
use crate::entries::Entry;
use crate::layout::{Block, Layout, Span, Table, Tower};
use crate::numbers;
use crate::page::{self, skip_list, span, superblock, METAINDEX, PAGE, SUPERBLOCK};
use crate::program;
use std::fs;
use std::io;
use std::path::Path;

/// A card with the line that the program has to write for it.
#[derive(Clone, Debug)]
pub struct Sample {
    pub name: &'static str,
    pub card: Vec<u8>,
    pub line: &'static str,
}

/// The table of lens records.
const LENS: &[u8] = b"lens";

/// The table of frame offsets.
const SYNC: &[u8] = b"#sync";

/// As many pages as the program reads.
const MOST_PAGES: u32 = (program::MOST / PAGE) as u32;

/// The span size of created tables.
const SPAN_SIZE: u16 = 4;

/// All samples.
pub fn samples() -> Vec<Sample> {
    let sample = |name, card, line| Sample { name, card, line };
    let cameras = cameras();
    vec![
        sample("blank", blank(8), "pages 8 tables 0 keys 0 free 4"),
        sample("lens", lens(8), "pages 8 tables 1 keys 0 free 1"),
        sample(
            "cameras",
            cameras.clone(),
            "pages 32 tables 1 keys 30 free 11",
        ),
        sample("full", full(), "pages 16 tables 1 keys 22 free 0"),
        sample("offsets", offsets(), "pages 16 tables 1 keys 12 free 4"),
        sample("offsets-by-bytes", offsets_by_bytes(), "refused 3"),
        sample("towers", towers(), "pages 32 tables 2 keys 26 free 2"),
        sample("count", with_count(5), "pages 8 tables 0 keys 0 free 4"),
        sample("count-off-by-one", with_count(4), "refused 3"),
        sample("count-garbage", with_count(0xa5a5_a5a5), "refused 3"),
        sample("count-largest", with_count(u32::MAX), "refused 3"),
        sample("empty-file", Vec::new(), "refused 1"),
        sample("ring-of-spans", ring_of_spans(&cameras), "refused 3"),
        sample("cut-in-a-page", cameras[..20_000].to_vec(), "refused 1"),
        sample(
            "cut-after-a-page",
            cameras[..20 * PAGE].to_vec(),
            "refused 3",
        ),
        sample("too-long", too_long(&cameras), "too long"),
    ]
}

/// Writes every sample into the folder: NAME.card, and NAME.line with the line.
pub fn write(folder: &Path) -> io::Result<()> {
    fs::create_dir_all(folder)?;
    for Sample { name, card, line } in samples() {
        fs::write(folder.join(format!("{name}.card")), card)?;
        fs::write(folder.join(format!("{name}.line")), format!("{line}\n"))?;
    }
    Ok(())
}

/// "An empty metaindex on pages 2 to 4, and page 5 a free-list block listing" the others. The free count
/// is not kept.
fn blank(pages: u32) -> Vec<u8> {
    let first = Span {
        page: 3,
        continuations: Vec::new(),
        entries: Vec::new(),
        tower: None,
    };
    let head = Tower {
        page: 4,
        max: 12,
        height: 0,
    };
    let layout = Layout {
        pages,
        mounted: 0,
        span_size: SPAN_SIZE,
        count_kept: false,
        meta: Table {
            root: METAINDEX,
            span_size: 16,
            head,
            spans: vec![first],
        },
        tables: Vec::new(),
        free: vec![Block {
            page: 5,
            listed: (6..=pages).collect(),
        }],
    };
    let mut image = vec![0; PAGE * pages as usize];
    encode::layout(&mut image, &layout);
    image
}

/// A blank card, with four pages free, on which this figure is the kept count.
fn with_count(count: u32) -> Vec<u8> {
    let mut image = blank(8);
    page::write_u32(&mut image, SUPERBLOCK, superblock::KEPT_COUNT, count);
    image
}

/// "After create "lens"."
fn lens(pages: u32) -> Vec<u8> {
    with_table(pages, LENS)
}

/// A blank card with a table of this name.
fn with_table(pages: u32, name: &[u8]) -> Vec<u8> {
    let mut image = blank(pages);
    create(&mut image, name);
    image
}

fn create(image: &mut [u8], name: &[u8]) {
    let mut scratch = vec![0; image.len()];
    let answer = calls::create(image, &mut scratch, name);
    assert_eq!(answer.number, 0, "there is room for a table");
}

/// A table "lens" with the records of thirty cameras, on as many pages as the program reads.
fn cameras() -> Vec<u8> {
    let mut image = lens(MOST_PAGES);
    for camera in 1..=30 {
        assert_eq!(put(&mut image, camera), 0, "there is room for a camera");
    }
    image
}

/// A table "lens" with the records of as many cameras as there is room for.
fn full() -> Vec<u8> {
    let mut image = lens(16);
    (1..).find(|&camera| put(&mut image, camera) == 10);
    image
}

/// Puts the record of a camera; gives the answer's number.
fn put(image: &mut [u8], camera: u32) -> u32 {
    let mut scratch = vec![0; image.len()];
    let Entry { key, value } = calibration(camera);
    calls::put(image, &mut scratch, LENS, &key, &value).number
}

/// The entry of a camera in the table "lens".
fn calibration(camera: u32) -> Entry {
    Entry {
        key: format!("cam{camera:02}").into_bytes(),
        value: record(camera),
    }
}

/// A table "#sync" with the frame offsets of twelve cameras: the first is the farthest behind.
fn offsets() -> Vec<u8> {
    let mut image = with_table(16, SYNC);
    let mut scratch = vec![0; image.len()];
    for camera in 1..=12 {
        let Entry { key, value } = offset(camera);
        let answer = calls::put(&mut image, &mut scratch, SYNC, &key, &value);
        assert_eq!(answer.number, 0, "there is room for an offset");
    }
    image
}

/// The entry of a camera in the table "#sync".
fn offset(camera: u32) -> Entry {
    Entry {
        key: numbers::key(5 * camera as i32 - 30),
        value: format!("camera {camera:02}").into_bytes(),
    }
}

/// The same table with its entries, which all have one length, in the order of their keys' bytes.
fn offsets_by_bytes() -> Vec<u8> {
    let mut image = offsets();
    let mut layout = check(&image).expect("well-formed");
    let table = &mut layout.tables[0].1;
    let mut entries: Vec<Entry> = table.entries().cloned().collect();
    entries.sort_by(|one, other| one.key.cmp(&other.key));
    for span in &mut table.spans {
        let rest = entries.split_off(span.entries.len());
        span.entries = std::mem::replace(&mut entries, rest);
    }
    encode::layout(&mut image, &layout);
    image
}

/// Towers as no put makes them. The head of "lens" has as many levels as a tower can have; that of
/// "#sync" has more than any tower after it, and its first span is empty though others follow.
fn towers() -> Vec<u8> {
    let mut image = with_table(MOST_PAGES, SYNC);
    create(&mut image, LENS);
    let mut layout = check(&image).expect("well-formed");
    let unused = &mut layout.free[0].listed;
    let [(_, sync), (_, lens)] = layout.tables.as_mut_slice() else {
        panic!("two tables");
    };
    lens.spans[0].entries = [1, 2].map(calibration).into();
    for (place, height) in [1, 3, 0, 252, 0, 1].into_iter().enumerate() {
        let camera = 2 * place as u32 + 3;
        let entries = [camera, camera + 1].map(calibration).into();
        lens.spans.push(column(entries, height, unused));
    }
    for (place, height) in [1, 0, 3, 150, 0, 2].into_iter().enumerate() {
        let camera = 2 * place as u32 + 1;
        let entries = [camera, camera + 1].map(offset).into();
        sync.spans.push(column(entries, height, unused));
    }
    (lens.head.max, lens.head.height) = (252, 252);
    (sync.head.max, sync.head.height) = (252, 200);
    encode::layout(&mut image, &layout);
    image
}

/// A span with these entries, which fit on its page, and a tower of this height, or none for 0.
fn column(entries: Vec<Entry>, height: u16, unused: &mut Vec<u32>) -> Span {
    let mut take = || unused.pop().expect("a page for every use");
    Span {
        page: take(),
        continuations: Vec::new(),
        entries,
        tower: (height > 0).then(|| Tower {
            page: take(),
            max: height,
            height,
        }),
    }
}

/// A small calibration record: focal lengths and centre, none, two or four numbers of a model,
/// and notes, each after its count.
fn record(camera: u32) -> Vec<u8> {
    let step = f64::from(camera);
    let numbers = [1400.0 + step, 1401.5 + step, 960.25, 540.75 - step / 4.0];
    let model = [-0.25, 0.0625 + step / 64.0, 0.001, -0.0005];
    let notes = format!("camera {camera}, set up at the north gate");
    let mut record = vec![4];
    record.extend(numbers.iter().flat_map(|number| number.to_be_bytes()));
    let model = &model[..2 * (camera as usize % 3)];
    record.push(model.len() as u8);
    record.extend(model.iter().flat_map(|number| number.to_be_bytes()));
    record.push(notes.len() as u8);
    record.extend(notes.bytes());
    record
}

/// The last span of the table leads back to its first.
fn ring_of_spans(cameras: &[u8]) -> Vec<u8> {
    let mut image = cameras.to_vec();
    let root = (1..=image.len() as u32 / PAGE as u32)
        .rfind(|&number| number != METAINDEX && page::bears(&image, number, page::Kind::SkipList))
        .expect("the skip-list page of the table");
    let first = page::read_u32(&image, root, skip_list::FIRST_SPAN);
    let mut last = first;
    loop {
        match page::read_u32(&image, last, span::NEXT) {
            0 => break,
            next => last = next,
        }
    }
    page::write_u32(&mut image, last, span::NEXT, first);
    image
}

/// One byte more than the program reads.
fn too_long(cameras: &[u8]) -> Vec<u8> {
    let mut card = cameras.to_vec();
    card.resize(program::MOST + 1, 0);
    card
}
