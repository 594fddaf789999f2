//! A program that links towers wrongly in one thing, in tables of one order of keys, is found out.

use reference::calls::Answer;
use reference::check::check;
use reference::compare::programs::{Program, PutCall, RemoveCall, TWIN};
use reference::compare::{put_lists, remove_lists};
use reference::layout::{Table, Tower};
use reference::page::{read_u32, tower_entry, write_u32};
use reference::sort::Sort;
use reference::towers::{descend, Bound, Path, Sought};
use reference::twin;

/// On how many lists a wrong program has to be found out.
const LISTS: u64 = 1_000;

/// The table of this name, if the image has it and its keys sort so.
fn table_of(image: &[u8], name: &[u8], sort: Sort) -> Option<Table> {
    let layout = check(image).ok()?;
    let place = layout.find(name).filter(|_| Sort::of(name) == sort)?;
    Some(layout.tables[place].1.clone())
}

/// The tower that one table has and the other has not.
fn more(one: &Table, other: &Table) -> Option<Tower> {
    let is_there = |tower: &&Tower| other.towers().any(|same| same.page == tower.page);
    one.towers().find(|tower| !is_there(tower)).copied()
}

/// The towers passed on the way to a key, by the image before a call, and the tower that the call linked or
/// took out in a table that sorts so.
fn of_call(
    before: &[u8],
    after: &[u8],
    name: &[u8],
    key: &[u8],
    sort: Sort,
    bound: Bound,
) -> Option<(Path, Tower)> {
    let old = table_of(before, name, sort)?;
    let new = table_of(after, name, sort)?;
    let tower = more(&old, &new).or_else(|| more(&new, &old))?;
    let path = descend(before, old.root, &Sought { sort, key, bound });
    Some((path, tower))
}

/// A put that links a new tower at each level behind the tower passed at the level above.
fn put_by_level_above(
    sort: Sort,
    image: &mut [u8],
    scratch: &mut [u8],
    name: &[u8],
    key: &[u8],
    value: &[u8],
) -> Answer {
    let before = image.to_vec();
    let answer = twin::put(image, scratch, name, key, value);
    let of_call = of_call(&before, image, name, key, sort, Bound::AtOrBelow);
    if let Some((path, tower)) = of_call {
        let levels = path.passed[..path.height].windows(2).enumerate();
        for (level, pair) in levels.take(usize::from(tower.height)) {
            let (offset, right, wrong) = (tower_entry(level), pair[0], pair[1]);
            let after = read_u32(image, tower.page, offset);
            write_u32(image, right, offset, after);
            let after = read_u32(image, wrong, offset);
            write_u32(image, tower.page, offset, after);
            write_u32(image, wrong, offset, tower.page);
        }
    }
    answer
}

#[test]
fn a_new_tower_linked_by_the_level_above() {
    let puts: [PutCall; 2] = [
        |image, scratch, name, key, value| {
            put_by_level_above(Sort::Bytes, image, scratch, name, key, value)
        },
        |image, scratch, name, key, value| {
            put_by_level_above(Sort::Numbers, image, scratch, name, key, value)
        },
    ];
    for put in puts.map(Some) {
        let found = put_lists(&Program { put, ..TWIN }, 1, LISTS);
        let found = found.expect_err("a difference").what;
        assert!(found.contains("a put: the image"), "{found}");
    }
}

/// A remove that takes a tower out by the towers passed at or below the key, so from behind itself: those
/// before it still lead to it.
fn remove_by_itself(
    sort: Sort,
    image: &mut [u8],
    scratch: &mut [u8],
    name: &[u8],
    key: &[u8],
) -> Answer {
    let before = image.to_vec();
    let answer = twin::remove(image, scratch, name, key);
    let of_call = of_call(&before, image, name, key, sort, Bound::Below);
    if let Some((path, tower)) = of_call {
        let levels = path.passed.iter().enumerate();
        for (level, right) in levels.take(usize::from(tower.height)) {
            write_u32(image, *right, tower_entry(level), tower.page);
        }
    }
    answer
}

#[test]
fn a_tower_unlinked_by_the_path_at_the_key() {
    let removes: [RemoveCall; 2] = [
        |image, scratch, name, key| remove_by_itself(Sort::Bytes, image, scratch, name, key),
        |image, scratch, name, key| remove_by_itself(Sort::Numbers, image, scratch, name, key),
    ];
    for remove in removes.map(Some) {
        let found = remove_lists(&Program { remove, ..TWIN }, 1, LISTS);
        let found = found.expect_err("a difference").what;
        assert!(found.contains("a remove: the image"), "{found}");
    }
}
