//! The refusal numbers, their order, and what a refused call leaves.

mod common;

use common::{card, create, layout, put, remove, table};
use reference::audit::audit;
use reference::calls::{self, Answer};
use reference::generate::Sample;
use reference::ledger::{tables_of, Ledger};
use reference::request::{Call, Request};

const LONG: usize = 65_536;

fn refused(number: u32) -> Answer {
    Answer {
        number,
        ..Answer::default()
    }
}

/// An image with a table "t" that has a key "k" with the value "value".
fn image() -> Vec<u8> {
    let mut image = card(12, 16);
    assert_eq!(create(&mut image, b"t"), 0);
    assert_eq!(put(&mut image, b"t", b"k", b"value"), 0);
    image
}

/// Runs a call on a copy; asserts that the image stays and the scratch is zero.
fn on_copy(image: &[u8], call: impl Fn(&mut [u8], &mut [u8]) -> Answer) -> Answer {
    let mut copy = image.to_vec();
    let mut scratch = vec![0x77; image.len() + 9];
    let answer = call(&mut copy, &mut scratch);
    assert_ne!(answer.number, 0);
    assert!(copy == image);
    assert!(scratch[..image.len()].iter().all(|byte| *byte == 0));
    assert_eq!(scratch[image.len()..], [0x77; 9]);
    answer
}

#[test]
fn lengths_come_first_and_write_nothing() {
    let good = image();
    let mut bad = good.clone();
    bad[0] = 0;
    for length in [0, 1, 3 * 1024, 4 * 1024 - 1, good.len() - 1, 4097 * 1024] {
        let mut copy = good.clone();
        copy.resize(length, 0);
        let mut scratch = vec![0x77; 10];
        assert_eq!(calls::check(&copy, &mut scratch), refused(1));
        assert_eq!(calls::create(&mut copy, &mut scratch, b""), refused(1));
        assert_eq!(scratch, [0x77; 10]);
    }
    let mut scratch = vec![0x77; good.len() - 1];
    assert_eq!(calls::check(&bad, &mut scratch), refused(2));
    let answer = calls::put(&mut bad, &mut scratch, b"", b"", &[0; LONG]);
    assert_eq!(answer, refused(2));
    assert!(scratch.iter().all(|byte| *byte == 0x77));
}

#[test]
fn not_well_formed_comes_before_the_calls_own() {
    let mut bad = image();
    bad[0] = 0;
    let answer = on_copy(&bad, |image, scratch| {
        calls::put(image, scratch, b"", b"", &[0; LONG])
    });
    assert_eq!(answer, refused(3));
    let answer = on_copy(&bad, |image, scratch| calls::check(image, scratch));
    assert_eq!(answer, refused(3));
}

#[test]
fn names_and_keys_come_before_values_and_tables() {
    let good = image();
    let long_name = [b'n'; 256];
    for name in [&b""[..], b"a b", b"\x7f", b"\x80", &long_name] {
        let number = |answer: Answer| assert_eq!(answer, refused(4));
        number(on_copy(&good, |image, scratch| {
            calls::create(image, scratch, name)
        }));
        number(on_copy(&good, |image, scratch| {
            calls::put(image, scratch, name, b"k", &[0; LONG])
        }));
        number(on_copy(&good, |image, scratch| {
            calls::next(image, scratch, name, b"", &mut [])
        }));
    }
    for key in [&[][..], &[0; LONG]] {
        let number = |answer: Answer| assert_eq!(answer, refused(4));
        number(on_copy(&good, |image, scratch| {
            calls::put(image, scratch, b"none", key, &[0; LONG])
        }));
        number(on_copy(&good, |image, scratch| {
            calls::get(image, scratch, b"none", key, &mut [])
        }));
        number(on_copy(&good, |image, scratch| {
            calls::remove(image, scratch, b"none", key)
        }));
    }
    let answer = on_copy(&good, |image, scratch| {
        calls::next(image, scratch, b"t", &[0; LONG], &mut [])
    });
    assert_eq!(answer, refused(4));
}

/// Asserts what each call that has a key is refused with, in this table with this key and value.
fn assert_keyed(image: &[u8], name: &[u8], key: &[u8], value: &[u8], numbers: [u32; 4]) {
    let [get, next, put, remove] = numbers;
    let answer = on_copy(image, |image, scratch| {
        calls::get(image, scratch, name, key, &mut [])
    });
    assert_eq!(answer, refused(get), "get {name:?} {}", key.len());
    let answer = on_copy(image, |image, scratch| {
        calls::next(image, scratch, name, key, &mut [])
    });
    assert_eq!(answer, refused(next), "next {name:?} {}", key.len());
    let answer = on_copy(image, |image, scratch| {
        calls::put(image, scratch, name, key, value)
    });
    assert_eq!(answer, refused(put), "put {name:?} {}", key.len());
    let answer = on_copy(image, |image, scratch| {
        calls::remove(image, scratch, name, key)
    });
    assert_eq!(answer, refused(remove), "remove {name:?} {}", key.len());
}

/// "4 also for a key of another length under such a name, table there or not (next may still be
/// empty)": before 5 and 6.
#[test]
fn keys_of_other_lengths_under_an_offset_name() {
    let mut good = card(12, 16);
    assert_eq!(create(&mut good, b"#t"), 0);
    for name in [&b"#t"[..], b"#", b"##", b"#none"] {
        for length in [1, 2, 3, 5, 6, 8, 255, LONG - 1, LONG] {
            for value in [&[0; LONG][..], b""] {
                assert_keyed(&good, name, &vec![0; length], value, [4; 4]);
            }
        }
        let none = if name == b"#t" { 8 } else { 6 };
        assert_keyed(&good, name, b"", &[0; LONG], [4, none, 4, 4]);
        assert_keyed(&good, name, b"four", &[0; LONG], [none, none, 5, none]);
    }
    for name in [&b"none"[..], b"a#", b"a#t", b"!#"] {
        for length in [1, 3, 4, 5, LONG - 1] {
            assert_keyed(&good, name, &vec![b'#'; length], b"", [6; 4]);
        }
    }
}

#[test]
fn values_tables_and_keys() {
    let good = image();
    let answer = on_copy(&good, |image, scratch| {
        calls::put(image, scratch, b"none", b"k", &[0; LONG])
    });
    assert_eq!(answer, refused(5));
    let answer = on_copy(&good, |image, scratch| {
        calls::put(image, scratch, b"none", b"k", &[0; LONG - 1])
    });
    assert_eq!(answer, refused(6));
    let answer = on_copy(&good, |image, scratch| {
        calls::next(image, scratch, b"none", b"", &mut [])
    });
    assert_eq!(answer, refused(6));
    let answer = on_copy(&good, |image, scratch| calls::create(image, scratch, b"t"));
    assert_eq!(answer, refused(7));
    let answer = on_copy(&good, |image, scratch| {
        calls::get(image, scratch, b"t", b"j", &mut [])
    });
    assert_eq!(answer, refused(8));
    let answer = on_copy(&good, |image, scratch| {
        calls::remove(image, scratch, b"t", b"kk")
    });
    assert_eq!(answer, refused(8));
    let answer = on_copy(&good, |image, scratch| {
        calls::next(image, scratch, b"t", b"k", &mut [])
    });
    assert_eq!(answer, refused(8));
}

#[test]
fn a_short_answer_buffer_stays() {
    let good = image();
    let needed = |length| Answer {
        number: 9,
        length,
        ..Answer::default()
    };
    let mut buffer = [0x55; 4];
    let mut scratch = vec![0; good.len()];
    let answer = calls::get(&good, &mut scratch, b"t", b"k", &mut buffer);
    assert_eq!(answer, needed(5));
    assert_eq!(buffer, [0x55; 4]);
    let answer = calls::next(&good, &mut scratch, b"t", b"", &mut []);
    assert_eq!(answer, needed(1));
}

#[test]
fn answers_are_written_at_the_start_and_no_more() {
    let mut good = image();
    let mut buffer = [0x55; 8];
    let mut scratch = vec![0x77; good.len() + 3];
    let answer = calls::get(&good, &mut scratch, b"t", b"k", &mut buffer);
    assert_eq!((answer.number, answer.length), (0, 5));
    assert_eq!(&buffer, b"valueUUU");
    assert!(scratch[..good.len()].iter().all(|byte| *byte == 0));
    assert_eq!(scratch[good.len()..], [0x77; 3]);
    assert_eq!(put(&mut good, b"t", b"e", b""), 0);
    let answer = calls::get(&good, &mut scratch, b"t", b"e", &mut []);
    assert_eq!(answer, Answer::default());
}

#[test]
fn no_room_comes_last() {
    let good = image();
    let answer = on_copy(&good, |image, scratch| {
        calls::put(image, scratch, b"t", b"k", &[0; LONG - 1])
    });
    assert_eq!(answer, refused(10));
    let mut crowded = good.clone();
    assert_eq!(put(&mut crowded, b"t", b"l", &[0; 3500]), 0);
    let answer = on_copy(&crowded, |image, scratch| {
        calls::create(image, scratch, b"u")
    });
    assert_eq!(answer, refused(10));
    let answer = on_copy(&crowded, |image, scratch| {
        calls::create(image, scratch, b"t")
    });
    assert_eq!(answer, refused(7));
}

/// An image with no page free and a table "t": "k" and a long value under "l", on three pages.
fn full() -> Vec<u8> {
    let mut image = card(9, 16);
    assert_eq!(create(&mut image, b"t"), 0);
    assert_eq!(put(&mut image, b"t", b"k", b"value"), 0);
    assert_eq!(put(&mut image, b"t", b"l", &[7; 2010]), 0);
    assert_eq!(layout(&image).free_pages(), 0);
    assert_eq!(table(&image, b"t").spans[0].continuations.len(), 2);
    image
}

#[test]
fn a_remove_needs_no_room() {
    let mut image = full();
    let answer = on_copy(&image, |image, scratch| {
        calls::put(image, scratch, b"t", b"l", &[7; 3100])
    });
    assert_eq!(answer, refused(10));
    let answer = on_copy(&image, |image, scratch| {
        calls::remove(image, scratch, b"t", b"m")
    });
    assert_eq!(answer, refused(8));
    let old = table(&image, b"t").spans[0].continuations.clone();
    assert_eq!(remove(&mut image, b"t", b"k"), 0);
    assert_eq!(table(&image, b"t").spans[0].continuations, old[..1]);
    assert_eq!(layout(&image).free_pages(), 1);
    assert_eq!(remove(&mut image, b"t", b"l"), 0);
    assert_eq!(layout(&image).free_pages(), 2);
}

/// A remove that answers 10 is not what the ledger says, and fails the audit.
#[test]
fn a_remove_is_not_refused_with_10() {
    let image = full();
    let layout = layout(&image);
    let request = Request {
        call: Call::Remove {
            name: b"t".to_vec(),
            key: b"k".to_vec(),
        },
        scratch_length: image.len(),
        answer_length: 0,
        fill: 0,
    };
    let mut ledger = Ledger::new(u64::from(layout.pages), tables_of(&layout));
    assert_eq!(ledger.feed(&request, true).number, 0);
    assert_eq!(ledger.feed(&request, true).number, 8);
    let before = Sample { image, layout };
    let outcome = audit(&before, &request, &refused(10), &before.image);
    assert!(outcome.is_err_and(|what| what.contains("10")));
}
