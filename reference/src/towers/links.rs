//! What a put or create reaches that links a new tower, and a remove that takes one out, in each order of
//! keys: among towers as no put makes them the towers before it differ from level to level.

use crate::layout::Table;
use crate::reached::held;
use crate::sort::Sort;
use std::collections::BTreeSet;

/// The greatest height of a tower in a table that was created and only changed by calls.
const HIGHEST_OF_CALLS: u16 = 12;

/// The cases of the towers beside one that is linked or taken out.
const BESIDE: [&str; 6] = [
    "at several levels behind the head alone",
    "at several levels behind one other",
    "at several levels behind several others",
    "at several levels behind others and the head",
    "at several levels before several others",
    "between others, one such as no put makes",
];

/// The cases of a new tower alone.
const NEW: [&str; 2] = [
    "higher than a head of current 0",
    "higher than a head that leads to others",
];

/// All cases of a new tower in a table that sorts so.
pub fn all_new(sort: Sort) -> Vec<String> {
    let cases = BESIDE.iter().chain(&NEW);
    cases.map(|case| of_new_tower(sort, case)).collect()
}

/// All cases of a tower taken out of a table that sorts so.
pub fn all_unlinked(sort: Sort) -> Vec<String> {
    let cases = BESIDE.iter();
    cases.map(|case| of_lost_tower(sort, case)).collect()
}

fn of_new_tower(sort: Sort, case: &str) -> String {
    format!("{sort:?}: new tower {case}")
}

fn of_lost_tower(sort: Sort, case: &str) -> String {
    format!("{sort:?}: tower unlinked {case}")
}

/// What a split reaches whose new span is at this place, if that has a tower. Only the levels below the
/// head's old current have other towers.
pub fn of_new(sort: Sort, old: &Table, new: &Table, place: usize) -> Vec<String> {
    let Some(tower) = &new.spans[place].tower else {
        return Vec::new();
    };
    let current = old.head.height;
    let mut cases = beside(new, place, tower.height.min(current));
    let is_higher = tower.height > current;
    let has_others = old.levels() > 1;
    cases.extend(held(&[
        ("higher than a head of current 0", current == 0),
        (
            "higher than a head that leads to others",
            is_higher && has_others,
        ),
    ]));
    let cases = cases.iter();
    cases.map(|case| of_new_tower(sort, case)).collect()
}

/// What a remove reaches that unlinks the span at this place, if that has a tower.
pub fn of_unlinked(sort: Sort, old: &Table, place: usize) -> Vec<String> {
    let Some(tower) = &old.spans[place].tower else {
        return Vec::new();
    };
    let cases = beside(old, place, tower.height);
    let cases = cases.iter();
    cases.map(|case| of_lost_tower(sort, case)).collect()
}

/// What stands before and after the tower of the span at this place, at so many of its levels.
fn beside(table: &Table, place: usize, levels: u16) -> Vec<String> {
    let is_several = levels > 1;
    let levels = 0..usize::from(levels);
    let before = levels
        .clone()
        .map(|level| table.tower_before(place, level).page);
    let before: BTreeSet<u32> = before.collect();
    let after = levels.map(|level| table.tower_after(place, level));
    let after: BTreeSet<u32> = after.filter(|page| *page != 0).collect();
    let has_head = before.contains(&table.head.page);
    let others = before.len() - usize::from(has_head);
    let is_between =
        table.tower_before(place, 0) != &table.head && table.tower_after(place, 0) != 0;
    let spans = table.spans.iter().enumerate();
    let mut towers = spans.filter_map(|(at, span)| span.tower.filter(|_| at != place));
    let is_odd = towers.any(|tower| tower.height > HIGHEST_OF_CALLS);
    held(&[
        (
            "at several levels behind the head alone",
            is_several && has_head && others == 0,
        ),
        (
            "at several levels behind one other",
            is_several && !has_head && others == 1,
        ),
        (
            "at several levels behind several others",
            is_several && !has_head && others > 1,
        ),
        (
            "at several levels behind others and the head",
            is_several && has_head && others > 0,
        ),
        (
            "at several levels before several others",
            is_several && after.len() > 1,
        ),
        (
            "between others, one such as no put makes",
            is_between && is_odd,
        ),
    ])
}
