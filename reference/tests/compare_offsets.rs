//! A program that is wrong about offset tables in one thing is found out.

use reference::calls::{self, Answer};
use reference::check::{check, walk};
use reference::compare::programs::{Program, REFERENCE};
use reference::compare::{images, offset_lists};
use reference::edit;
use reference::entries::MAX_LENGTH;
use reference::layout::{Layout, Table};
use reference::numbers;
use reference::rule::Rule;
use reference::sort::{number, Sort};

/// What is found on lists on offset tables.
fn found(program: Program) -> String {
    let found = offset_lists(&program, 1, 200);
    found.expect_err("a difference").what
}

/// What is found on images that are checked.
fn found_checking(check: fn(&[u8], &mut [u8]) -> Answer) -> String {
    let program = Program { check, ..REFERENCE };
    let found = images(&program, 1, 1_000);
    found.expect_err("a difference").what
}

fn refused(number: u32) -> Answer {
    Answer {
        number,
        ..Answer::default()
    }
}

/// Check by another verdict on images of a right length.
fn checked(image: &[u8], scratch: &mut [u8], accepts: fn(&Layout, &[Rule]) -> bool) -> Answer {
    let right = calls::check(image, scratch);
    let Some((layout, broken)) = walk(image).filter(|_| matches!(right.number, 0 | 3)) else {
        return right;
    };
    let rules: Vec<Rule> = broken.iter().map(|one| one.rule).collect();
    if !accepts(&layout, &rules) {
        return refused(3);
    }
    Answer {
        pages: u64::from(layout.pages),
        tables: layout.tables.len() as u64,
        keys: layout.keys() as u64,
        free: layout.free_pages() as u64,
        ..Answer::default()
    }
}

/// Whether the rules that are broken are this one alone.
fn only(broken: &[Rule], rule: Rule) -> bool {
    broken.iter().all(|one| *one == rule)
}

/// Whether the keys of all offset tables rise in this order.
fn offsets_rise(layout: &Layout, sort: Sort) -> bool {
    let offsets = layout.tables.iter();
    let mut offsets = offsets.filter(|(name, _)| Sort::of(name) == Sort::Numbers);
    offsets.all(|(_, table)| rises(table, sort))
}

/// Whether this holds of the lengths of all keys of offset tables.
fn offset_lengths(layout: &Layout, holds: fn(usize) -> bool) -> bool {
    let tables = layout.tables.iter();
    let mut offsets = tables.filter(|(name, _)| Sort::of(name) == Sort::Numbers);
    offsets.all(|(_, table)| table.entries().all(|entry| holds(entry.key.len())))
}

/// Whether the keys of a table rise in this order.
fn rises(table: &Table, sort: Sort) -> bool {
    let keys: Vec<&[u8]> = table.entries().map(|entry| &entry.key[..]).collect();
    let mut pairs = keys.windows(2);
    pairs.all(|pair| sort.compare(pair[0], pair[1]).is_lt())
}

/// The table of this name, if it is an offset table of a well-formed image.
fn offset_table(image: &[u8], name: &[u8]) -> Option<Table> {
    let layout = check(image).ok()?;
    let place = layout.find(name)?;
    let table = layout.tables[place].1.clone();
    (Sort::of(name) == Sort::Numbers).then_some(table)
}

#[test]
fn the_reference_is_right() {
    images(&REFERENCE, 1, 1_000).expect("no difference");
    offset_lists(&REFERENCE, 1, 200).expect("no difference");
}

#[test]
fn offsets_checked_by_their_bytes() {
    let found = found_checking(|image, scratch| {
        checked(image, scratch, |layout, broken| {
            only(broken, Rule::OffsetsRising) && offsets_rise(layout, Sort::Bytes)
        })
    });
    assert!(found.starts_with("check on"), "{found}");
}

/// An image with an offset table in the order of bytes is taken too.
#[test]
fn offsets_checked_in_either_order() {
    let found = found_checking(|image, scratch| {
        checked(image, scratch, |layout, broken| {
            let by_bytes = only(broken, Rule::OffsetsRising) && offsets_rise(layout, Sort::Bytes);
            broken.is_empty() || by_bytes
        })
    });
    let expected = "check on Damaged(OffsetsRising): Answer { number: 0";
    assert!(found.starts_with(expected), "{found}");
}

#[test]
fn equal_offsets_accepted() {
    let found = found_checking(|image, scratch| {
        checked(image, scratch, |layout, broken| {
            let keys = |table: &Table| -> Vec<Option<i32>> {
                table.entries().map(|entry| number(&entry.key)).collect()
            };
            let mut tables = layout.tables.iter();
            let rise = tables
                .all(|(name, table)| Sort::of(name) == Sort::Bytes || keys(table).is_sorted());
            broken.is_empty() || only(broken, Rule::OffsetsRising) && rise
        })
    });
    let expected = "check on Damaged(OffsetsRising): Answer { number: 0";
    assert!(found.starts_with(expected), "{found}");
}

#[test]
fn offsets_of_four_bytes_at_most_accepted() {
    let found = found_checking(|image, scratch| {
        checked(image, scratch, |layout, broken| {
            let is_short = offset_lengths(layout, |length| length <= 4);
            broken.is_empty() || only(broken, Rule::OffsetLength) && is_short
        })
    });
    let expected = "check on Damaged(OffsetLength): Answer { number: 0";
    assert!(found.starts_with(expected), "{found}");
}

#[test]
fn longer_offsets_accepted() {
    let found = found_checking(|image, scratch| {
        checked(image, scratch, |layout, broken| {
            let is_long = offset_lengths(layout, |length| length >= 4);
            broken.is_empty() || only(broken, Rule::OffsetLength) && is_long
        })
    });
    let expected = "check on Damaged(OffsetLength): Answer { number: 0";
    assert!(found.starts_with(expected), "{found}");
}

/// A name with "#" anywhere is taken for that of an offset table.
#[test]
fn names_that_only_have_the_sign_checked_as_offset_tables() {
    let found = found_checking(|image, scratch| {
        checked(image, scratch, |layout, broken| {
            let tables = layout.tables.iter();
            let mut tables = tables.filter(|(name, _)| name.contains(&b'#'));
            broken.is_empty() && tables.all(|(_, table)| rises(table, Sort::Numbers))
        })
    });
    let expected = "check on Sound: Answer { number: 3";
    assert!(found.starts_with(expected), "{found}");
}

#[test]
fn next_by_bytes() {
    let next = |image: &[u8], scratch: &mut [u8], name: &[u8], key: &[u8], into: &mut [u8]| {
        let right = calls::next(image, scratch, name, key, into);
        let (0, Some(table)) = (right.number, offset_table(image, name)) else {
            return right;
        };
        let keys = table.entries().map(|entry| entry.key.as_slice());
        let Some(above) = Sort::Bytes.above(keys, key) else {
            return refused(8);
        };
        into[..4].copy_from_slice(above);
        right
    };
    let next = Some(next as _);
    let found = found(Program { next, ..REFERENCE });
    assert!(found.contains("a next: "), "{found}");
}

#[test]
fn next_that_begins_at_0() {
    let next = |image: &[u8], scratch: &mut [u8], name: &[u8], key: &[u8], into: &mut [u8]| {
        let below_0 = numbers::key(-1);
        let key = match Sort::of(name) {
            Sort::Numbers if key.is_empty() => below_0.as_slice(),
            _ => key,
        };
        calls::next(image, scratch, name, key, into)
    };
    let next = Some(next as _);
    let found = found(Program { next, ..REFERENCE });
    assert!(found.contains("a next: "), "{found}");
}

#[test]
fn next_that_refuses_the_empty_key() {
    let next = |image: &[u8], scratch: &mut [u8], name: &[u8], key: &[u8], into: &mut [u8]| {
        let right = calls::next(image, scratch, name, key, &mut into[..]);
        match Sort::of(name) {
            Sort::Numbers if key.is_empty() && right.number > 4 => refused(4),
            _ => right,
        }
    };
    let next = Some(next as _);
    let found = found(Program { next, ..REFERENCE });
    assert!(found.contains("a next: Answer { number: 4"), "{found}");
}

#[test]
fn get_in_the_target_by_bytes() {
    let get = |image: &[u8], scratch: &mut [u8], name: &[u8], key: &[u8], into: &mut [u8]| {
        let mut copy = into.to_vec();
        let right = calls::get(image, scratch, name, key, &mut copy);
        let table = offset_table(image, name).filter(|_| right.number == 0);
        let is_there = table.is_none_or(|table| {
            let span = &table.spans[table.target(Sort::Bytes, key)];
            span.entries.iter().any(|entry| entry.key == key)
        });
        if !is_there {
            return refused(8);
        }
        into.copy_from_slice(&copy);
        right
    };
    let get = Some(get as _);
    let found = found(Program { get, ..REFERENCE });
    assert!(found.contains("a get: Answer { number: 8"), "{found}");
}

#[test]
fn put_by_bytes() {
    let put = |image: &mut [u8], scratch: &mut [u8], name: &[u8], key: &[u8], value: &[u8]| {
        let mut copy = image.to_vec();
        let right = calls::put(&mut copy, scratch, name, key, value);
        let (0, Some(mut table)) = (right.number, offset_table(image, name)) else {
            image.copy_from_slice(&copy);
            return right;
        };
        let free = calls::check(image, scratch).free as usize;
        match edit::put(image, free, &mut table, Sort::Bytes, key, value) {
            Ok(()) => right,
            Err(_) => refused(10),
        }
    };
    let put = Some(put as _);
    let found = found(Program { put, ..REFERENCE });
    assert!(found.contains("a put: the image differs"), "{found}");
}

#[test]
fn remove_by_bytes() {
    let remove = |image: &mut [u8], scratch: &mut [u8], name: &[u8], key: &[u8]| {
        let mut copy = image.to_vec();
        let right = calls::remove(&mut copy, scratch, name, key);
        let (0, Some(mut table)) = (right.number, offset_table(image, name)) else {
            image.copy_from_slice(&copy);
            return right;
        };
        edit::remove(image, &mut table, Sort::Bytes, key);
        right
    };
    let remove = Some(remove as _);
    let found = found(Program {
        remove,
        ..REFERENCE
    });
    assert!(found.contains("a remove: the image differs"), "{found}");
}

/// Shorter keys are taken for numbers of fewer bytes.
#[test]
fn keys_of_four_bytes_at_most() {
    let get = |image: &[u8], scratch: &mut [u8], name: &[u8], key: &[u8], into: &mut [u8]| {
        let mut padded = key.to_vec();
        while Sort::of(name) == Sort::Numbers && (1..4).contains(&padded.len()) {
            padded.insert(0, 0);
        }
        calls::get(image, scratch, name, &padded, into)
    };
    let get = Some(get as _);
    let found = found(Program { get, ..REFERENCE });
    assert!(found.contains("expected Answer { number: 4"), "{found}");
}

/// The answer where the bytes of the key, and not those of the name, say of what length it has to be.
fn by_the_key(image: &[u8], name: &[u8], key: &[u8], right: Answer) -> Answer {
    if matches!(right.number, 1..=3) {
        return right;
    }
    let is_legal = (1..=MAX_LENGTH).contains(&key.len());
    let table = check(image).map(|layout| layout.find(name));
    match (right.number, Sort::of(key)) {
        (5.., Sort::Numbers) if key.len() != 4 => refused(4),
        (4, Sort::Bytes) if is_legal && Sort::of(name) == Sort::Numbers => match table {
            Ok(Some(_)) => refused(8),
            _ => refused(6),
        },
        _ => right,
    }
}

#[test]
fn the_sign_looked_for_in_the_key() {
    let get = |image: &[u8], scratch: &mut [u8], name: &[u8], key: &[u8], into: &mut [u8]| {
        let right = calls::get(image, scratch, name, key, into);
        by_the_key(image, name, key, right)
    };
    let get = Some(get as _);
    let found = found(Program { get, ..REFERENCE });
    assert!(found.contains("a get: "), "{found}");
}

/// Keys that begin with "#" are refused if they are not of four bytes, also in ordinary tables.
#[test]
fn the_sign_looked_for_in_the_key_too() {
    let remove = |image: &mut [u8], scratch: &mut [u8], name: &[u8], key: &[u8]| {
        let mut copy = image.to_vec();
        let right = calls::remove(&mut copy, scratch, name, key);
        if matches!(right.number, 0 | 5..) && Sort::of(key) == Sort::Numbers && key.len() != 4 {
            return refused(4);
        }
        image.copy_from_slice(&copy);
        right
    };
    let remove = Some(remove as _);
    let found = found(Program {
        remove,
        ..REFERENCE
    });
    assert!(found.contains("a remove: Answer { number: 4"), "{found}");
}

#[test]
fn names_that_only_have_the_sign_refuse_other_keys() {
    let put = |image: &mut [u8], scratch: &mut [u8], name: &[u8], key: &[u8], value: &[u8]| {
        let mut copy = image.to_vec();
        let right = calls::put(&mut copy, scratch, name, key, value);
        let is_taken = name.contains(&b'#') && !Sort::Numbers.allows(key);
        if matches!(right.number, 0 | 5..) && is_taken {
            return refused(4);
        }
        image.copy_from_slice(&copy);
        right
    };
    let put = Some(put as _);
    let found = found(Program { put, ..REFERENCE });
    assert!(found.contains("a put: Answer { number: 4"), "{found}");
}

#[test]
fn a_long_value_refused_before_a_bad_key() {
    let put = |image: &mut [u8], scratch: &mut [u8], name: &[u8], key: &[u8], value: &[u8]| {
        let right = calls::put(image, scratch, name, key, value);
        let is_bad = Sort::of(name) == Sort::Numbers && !Sort::Numbers.allows(key);
        match right.number {
            4 if is_bad && value.len() > MAX_LENGTH => refused(5),
            _ => right,
        }
    };
    let put = Some(put as _);
    let found = found(Program { put, ..REFERENCE });
    assert!(found.contains("a put: Answer { number: 5"), "{found}");
}

#[test]
fn a_missing_table_refused_before_a_bad_key() {
    let next = |image: &[u8], scratch: &mut [u8], name: &[u8], key: &[u8], into: &mut [u8]| {
        let right = calls::next(image, scratch, name, key, into);
        let is_bad = Sort::of(name) == Sort::Numbers && !Sort::Numbers.allows(key);
        let is_there = check(image).is_ok_and(|layout| layout.find(name).is_some());
        match right.number {
            4 if is_bad && !is_there => refused(6),
            _ => right,
        }
    };
    let next = Some(next as _);
    let found = found(Program { next, ..REFERENCE });
    assert!(found.contains("a next: Answer { number: 6"), "{found}");
}
