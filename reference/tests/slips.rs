//! The list "Slips to catch" of document 01, and what else is easy to get wrong.

mod common;

use common::{card, create, get, layout, next, pages_changed, put, read, remove, table, write};
use reference::check::check;
use reference::rule::Rule;

fn u32_at(image: &[u8], page: u32, offset: usize) -> u32 {
    let bytes = read(image, page, offset, 4);
    u32::from_be_bytes(bytes.try_into().unwrap())
}

fn broken(image: &[u8]) -> Vec<Rule> {
    let broken = check(image).expect_err("not well-formed");
    broken.iter().map(|broken| broken.rule).collect()
}

/// A table "t" with span size 2, each put of a rising key a new last entry.
fn rising(pages: usize, keys: u8) -> Vec<u8> {
    let mut image = card(pages, 2);
    assert_eq!(create(&mut image, b"t"), 0);
    for key in 0..keys {
        assert_eq!(put(&mut image, b"t", &[b'a' + key], &[key]), 0);
    }
    image
}

#[test]
fn entries_begin_at_20() {
    let mut image = card(20, 16);
    create(&mut image, b"t");
    put(&mut image, b"t", b"key", b"value");
    let page = table(&image, b"t").spans[0].page;
    assert_eq!(read(&image, page, 20, 12), b"\0\x03\0\x05keyvalue");
}

#[test]
fn blocks_are_taken_when_no_page_is_listed() {
    let mut image = card(8, 16);
    write(&mut image, 5, 8, &[0, 0, 0, 6, 0, 0, 0, 0]);
    for page in 6..=8 {
        write(&mut image, page, 0, b"#frList#\0\0\0\0\0\0\0\0");
    }
    write(&mut image, 6, 11, &[7]);
    write(&mut image, 7, 11, &[8]);
    assert_eq!(layout(&image).free_pages(), 4);
    assert_eq!(create(&mut image, b"t"), 0);
    let made = table(&image, b"t");
    assert_eq!((made.root, made.spans[0].page, made.head.page), (5, 6, 7));
    assert_eq!(u32_at(&image, 1, 16), 8);
    assert_eq!(put(&mut image, b"t", b"k", &[0; 1000]), 0);
    assert_eq!(u32_at(&image, 1, 16), 0);
    let before = image.clone();
    assert_eq!(put(&mut image, b"t", b"l", &[0; 3000]), 10);
    assert_eq!(create(&mut image, b"u"), 10);
    assert!(image == before);
}

#[test]
fn rings_of_spans_and_levels() {
    let image = rising(40, 9);
    let made = table(&image, b"t");
    let last = made.spans.last().unwrap().page as usize;
    let mut ring = image.clone();
    write(&mut ring, last, 12, &made.spans[0].page.to_be_bytes());
    assert_eq!(broken(&ring), [Rule::SpanEnd]);
    let tower = made.towers().last().unwrap().page;
    let mut ring = image.clone();
    write(&mut ring, tower as usize, 16, &tower.to_be_bytes());
    assert!(broken(&ring).contains(&Rule::LevelEnd));
}

#[test]
fn two_names_share_no_skip_list() {
    let mut image = card(40, 16);
    create(&mut image, b"t");
    create(&mut image, b"u");
    assert_eq!(read(&image, 3, 20, 18).len(), 18);
    let root = table(&image, b"t").root;
    write(&mut image, 3, 34, &root.to_be_bytes());
    assert!(broken(&image).contains(&Rule::OwnedTwice));
}

#[test]
fn towers_link_at_every_level() {
    let image = rising(40, 11);
    let made = table(&image, b"t");
    let heights: Vec<u16> = made.towers().map(|tower| tower.height).collect();
    assert_eq!(made.spans.len(), 6);
    assert_eq!(heights, [1, 2, 1]);
    let pages: Vec<u32> = made.towers().map(|tower| tower.page).collect();
    assert_eq!(u32_at(&image, made.head.page, 16), pages[0]);
    assert_eq!(u32_at(&image, made.head.page, 20), pages[1]);
    assert_eq!(read(&image, made.head.page, 8, 4), [0, 12, 0, 2]);
    assert_eq!(u32_at(&image, pages[0], 16), pages[1]);
    assert_eq!(u32_at(&image, pages[1], 16), pages[2]);
    assert_eq!(u32_at(&image, pages[1], 20), 0);
    assert_eq!(u32_at(&image, pages[2], 16), 0);
}

#[test]
fn a_tower_goes_with_its_span() {
    let mut image = rising(40, 7);
    let before = table(&image, b"t");
    let place = 3;
    assert_eq!(before.spans[place].tower.unwrap().height, 2);
    let free = layout(&image).free_pages();
    for entry in &before.spans[place].entries {
        assert_eq!(remove(&mut image, b"t", &entry.key), 0);
    }
    let after = table(&image, b"t");
    assert_eq!(after.levels(), before.levels() - 1);
    assert_eq!(after.head, before.head);
    assert_eq!(u32_at(&image, after.head.page, 20), 0);
    assert_eq!(layout(&image).free_pages(), free + 2);
    let listed = layout(&image).free[0].listed.clone();
    let tower = before.spans[place].tower.unwrap().page;
    assert!(listed.ends_with(&[before.spans[place].page, tower]));
}

#[test]
fn a_removed_span_is_not_rewritten() {
    let mut image = rising(40, 5);
    let spans = table(&image, b"t").spans;
    let page = spans.last().unwrap().page;
    let old = read(&image, page, 0, 1024).to_vec();
    assert_eq!(spans.last().unwrap().entries.len(), 1);
    assert_eq!(remove(&mut image, b"t", b"e"), 0);
    assert_eq!(read(&image, page, 0, 8), b"~!FREE!~");
    assert_eq!(read(&image, page, 8, 1016), &old[8..]);
}

#[test]
fn an_empty_first_span_hides_no_key() {
    let mut image = rising(40, 4);
    assert_eq!(remove(&mut image, b"t", b"a"), 0);
    assert_eq!(remove(&mut image, b"t", b"b"), 0);
    let made = table(&image, b"t");
    assert!(made.spans[0].entries.is_empty() && made.spans.len() > 1);
    assert_eq!(get(&image, b"t", b"c"), (0, vec![2]));
    assert_eq!(next(&image, b"t", b""), (0, b"c".to_vec()));
    assert_eq!(next(&image, b"t", b"c"), (0, b"d".to_vec()));
    assert_eq!(next(&image, b"t", b"d"), (8, vec![]));
    assert_eq!(put(&mut image, b"t", b"b", b""), 0);
    assert_eq!(table(&image, b"t").spans[0].entries[0].key, b"b");
    assert_eq!(remove(&mut image, b"t", b"d"), 0);
}

#[test]
fn a_full_span_takes_a_present_key() {
    let mut image = rising(40, 2);
    assert_eq!(put(&mut image, b"t", b"a", b"new"), 0);
    assert_eq!(table(&image, b"t").spans.len(), 1);
    assert_eq!(get(&image, b"t", b"a"), (0, b"new".to_vec()));
}

#[test]
fn an_equal_value_writes_the_span_whole() {
    let mut image = rising(40, 1);
    let page = table(&image, b"t").spans[0].page as usize;
    write(&mut image, page, 500, b"garbage");
    let before = image.clone();
    assert_eq!(put(&mut image, b"t", b"a", &[0]), 0);
    assert_eq!(pages_changed(&before, &image), [page]);
    assert_eq!(read(&image, page as u32, 500, 7), [0; 7]);
}

/// With span size 2 and a third key above both, the same two entries stay; the span is written
/// whole all the same, since the key joined it.
#[test]
fn the_target_of_a_split_is_written_whole() {
    let mut image = rising(40, 2);
    let page = table(&image, b"t").spans[0].page as usize;
    write(&mut image, page, 500, b"garbage");
    assert_eq!(put(&mut image, b"t", b"c", b""), 0);
    assert_eq!(table(&image, b"t").spans[0].entries.len(), 2);
    assert_eq!(read(&image, page as u32, 500, 7), [0; 7]);
}

#[test]
fn an_old_continuation_page_becomes_the_new_span() {
    let mut image = card(40, 2);
    create(&mut image, b"t");
    put(&mut image, b"t", b"a", b"");
    put(&mut image, b"t", b"z", &[7; 3000]);
    let old = table(&image, b"t").spans[0].continuations.clone();
    assert_eq!(old.len(), 2);
    put(&mut image, b"t", b"b", b"");
    let spans = table(&image, b"t").spans;
    assert_eq!(spans[0].continuations, []);
    assert_eq!(spans[1].page, old[0]);
    assert_eq!(spans[1].continuations[0], old[1]);
}

#[test]
fn shorter_values_give_pages_back_in_chain_order() {
    let mut image = card(40, 16);
    create(&mut image, b"t");
    put(&mut image, b"t", b"a", &[7; 5000]);
    let old = table(&image, b"t").spans[0].continuations.clone();
    let content = read(&image, old[2], 8, 1016).to_vec();
    let listed = layout(&image).free[0].listed.clone();
    put(&mut image, b"t", b"a", &[7; 1500]);
    assert_eq!(table(&image, b"t").spans[0].continuations, old[..1]);
    let expected = [&listed[..], &old[1..]].concat();
    assert_eq!(layout(&image).free[0].listed, expected);
    assert_eq!(read(&image, old[2], 8, 1016), content);
}

#[test]
fn a_page_given_back_to_no_block_becomes_one() {
    let mut image = card(9, 16);
    create(&mut image, b"t");
    put(&mut image, b"t", b"a", &[7; 2016]);
    assert_eq!(u32_at(&image, 1, 16), 0);
    let old = table(&image, b"t").spans[0].continuations.clone();
    let content = read(&image, old[0], 16, 1008).to_vec();
    put(&mut image, b"t", b"a", b"");
    assert_eq!(u32_at(&image, 1, 16), old[0]);
    assert_eq!(read(&image, old[0], 0, 12), b"#frList#\0\0\0\0");
    assert_eq!(layout(&image).free[0].listed, old[1..]);
    assert_eq!(read(&image, old[0], 20, 1004), &content[4..]);
}

#[test]
fn a_page_given_back_to_a_full_block_becomes_the_first() {
    let mut image = card(257, 16);
    create(&mut image, b"t");
    put(&mut image, b"t", b"a", &[7; 4000]);
    let old = table(&image, b"t").spans[0].continuations.clone();
    assert_eq!(old.len(), 3);
    image.resize(263 * 1024, 0);
    write(&mut image, 1, 8, &(263 * 1024_u64).to_be_bytes());
    write(&mut image, 1, 28, &[0; 4]);
    write(&mut image, 5, 12, &[0, 0, 0, 252]);
    for page in 258..=263_usize {
        write(
            &mut image,
            5,
            16 + 4 * (page - 12),
            &(page as u32).to_be_bytes(),
        );
        write(&mut image, page, 0, b"~!FREE!~");
    }
    assert_eq!(layout(&image).free[0].listed.len(), 252);
    assert_eq!(put(&mut image, b"t", b"a", b""), 0);
    let free = layout(&image).free;
    assert_eq!((free[0].page, free[1].page), (old[0], 5));
    assert_eq!(free[0].listed, old[1..]);
    assert_eq!(free[1].listed.len(), 252);
}
