//! The marked examples of document 01.

mod common;

use common::{card, create, layout, put, read, table, write};
use reference::audit::reach;
use reference::edit::tower_height;
use reference::entries::{continuations, end, Entry, Place};
use reference::program::line;

fn entries(lengths: &[(usize, usize)]) -> Vec<Entry> {
    let numbered = lengths.iter().enumerate();
    numbered
        .map(|(place, (key, value))| Entry {
            key: vec![b'a' + place as u8; *key],
            value: vec![0xee; *value],
        })
        .collect()
}

/// The continuation pages by the walk, by the row of bytes, and by putting the entries.
fn continuation_pages(lengths: &[(usize, usize)]) -> usize {
    let entries = entries(lengths);
    let count = continuations(&entries);
    assert_eq!(count, reach(lengths));
    let mut image = card(20, 16);
    create(&mut image, b"t");
    for entry in &entries {
        assert_eq!(put(&mut image, b"t", &entry.key, &entry.value), 0);
    }
    let span = &table(&image, b"t").spans[0];
    assert_eq!(span.entries, entries);
    assert_eq!(span.continuations.len(), count);
    count
}

#[test]
fn l1_to_l7_continuation_pages() {
    assert_eq!(continuation_pages(&[]), 0);
    assert_eq!(continuation_pages(&[(1, 999)]), 0);
    assert_eq!(continuation_pages(&[(1, 1000)]), 1);
    assert_eq!(continuation_pages(&[(1, 996), (1, 0)]), 1);
    assert_eq!(continuation_pages(&[(1, 995), (1, 0)]), 1);
    assert_eq!(continuation_pages(&[(1, 2015)]), 1);
    assert_eq!(continuation_pages(&[(1, 2016)]), 2);
}

#[test]
fn l2_and_l6_fill_their_pages() {
    let full = |page| Place { page, offset: 1024 };
    assert_eq!(end(&entries(&[(1, 999)])), full(0));
    assert_eq!(end(&entries(&[(1, 2015)])), full(1));
}

#[test]
fn l4_lengths_move_to_the_continuation() {
    let mut image = card(20, 16);
    create(&mut image, b"t");
    put(&mut image, b"t", b"a", &[0xee; 996]);
    put(&mut image, b"t", b"b", b"");
    let span = &table(&image, b"t").spans[0];
    assert_eq!(read(&image, span.page, 1020, 4), [0xee, 0, 0, 0]);
    let continuation = span.continuations[0];
    let expected = b"CONT\0\0\0\0\0\x01\0\0b\0\0\0";
    assert_eq!(read(&image, continuation, 0, 16), expected);
}

#[test]
fn l5_lengths_stay_and_the_key_runs_on() {
    let mut image = card(20, 16);
    create(&mut image, b"t");
    put(&mut image, b"t", b"a", &[0xee; 995]);
    put(&mut image, b"t", b"b", b"");
    let span = &table(&image, b"t").spans[0];
    assert_eq!(read(&image, span.page, 1020, 4), [0, 1, 0, 0]);
    assert_eq!(read(&image, span.continuations[0], 8, 2), *b"b\0");
}

#[test]
fn h1_to_h4_tower_heights() {
    assert_eq!(tower_height(2, 12), 1);
    assert_eq!(tower_height(3, 12), 0);
    assert_eq!(tower_height(4096, 12), 12);
    assert_eq!(tower_height(16, 3), 3);
}

#[test]
fn k1_k2_order_of_keys() {
    for (lower, upper) in [(&b"cam"[..], &b"cam1"[..]), (&b"\x7f"[..], &b"\x80"[..])] {
        let mut image = card(20, 16);
        create(&mut image, b"t");
        put(&mut image, b"t", upper, b"");
        put(&mut image, b"t", lower, b"");
        let keys = table(&image, b"t");
        let keys: Vec<&[u8]> = keys.entries().map(|entry| &entry.key[..]).collect();
        assert_eq!(keys, [lower, upper]);
    }
}

#[test]
fn s1_two_stay_and_one_moves() {
    for third in [b"a", b"c", b"e"] {
        let mut image = card(20, 2);
        create(&mut image, b"t");
        for key in [b"b", b"d", third] {
            assert_eq!(put(&mut image, b"t", key, b""), 0);
        }
        let spans = table(&image, b"t").spans;
        assert_eq!(spans.len(), 2);
        assert_eq!(spans[0].entries.len(), 2);
        assert_eq!(spans[1].entries.len(), 1);
    }
}

#[test]
fn the_programs_lines() {
    let mut image = card(8, 16);
    assert_eq!(line(&image), "pages 8 tables 0 keys 0 free 4");
    assert_eq!(create(&mut image, b"lens"), 0);
    assert_eq!(line(&image), "pages 8 tables 1 keys 0 free 1");
    write(&mut image, 1, 6, &[2]);
    assert_eq!(line(&image), "refused 3");
    assert_eq!(line(&image[1..]), "refused 1");
    assert_eq!(line(&[]), "refused 1");
    assert_eq!(line(&[0; 32_768]), "refused 3");
    assert_eq!(line(&[0; 32_769]), "too long");
}

#[test]
fn create_lens_byte_by_byte() {
    let mut image = card(8, 16);
    let mut expected = image.clone();
    assert_eq!(create(&mut image, b"lens"), 0);
    write(&mut expected, 1, 28, &[0, 0, 0, 2]);
    write(&mut expected, 2, 16, &[0, 0, 0, 1, 0, 0, 0, 1, 0, 0, 0, 1]);
    write(&mut expected, 5, 12, &[0, 0, 0, 0]);
    for page in [3, 6, 7, 8] {
        write(&mut expected, page, 0, &[0; 1024]);
    }
    write(&mut expected, 3, 0, b"Span");
    write(&mut expected, 3, 16, &[0, 16, 0, 1, 0, 4, 0, 4]);
    write(&mut expected, 3, 24, b"lens\0\0\0\x08");
    write(&mut expected, 8, 0, b"SkipList\0\0\0\x07\0\0\0\x06");
    write(
        &mut expected,
        8,
        16,
        &[0, 0, 0, 0, 0, 0, 0, 1, 0, 0, 0, 1, 0, 16],
    );
    write(&mut expected, 7, 0, b"Span");
    write(&mut expected, 7, 16, &[0, 16, 0, 0]);
    write(&mut expected, 6, 0, b"BSLevels\0\x0c\0\0\0\0\0\x07");
    assert!(image == expected);
    let lens = table(&image, b"lens");
    assert_eq!((lens.root, lens.spans[0].page, lens.head.page), (8, 7, 6));
    assert_eq!(layout(&image).free_pages(), 1);
}
