//! What happened in a done put, remove or create, for counting that lists of calls reach it.

use crate::layout::{Layout, Table};
use crate::page::{Kind, METAINDEX};
use std::collections::BTreeMap;

/// All events.
pub const ALL: [&str; 20] = [
    "entries changed",
    "free count kept already",
    "free count kept anew",
    "split",
    "split of the metaindex",
    "new tower",
    "new tower of height 2 or more",
    "head raised",
    "head raised by 2 or more",
    "new tower between others",
    "old continuation became span",
    "first span emptied",
    "span unlinked",
    "tower unlinked",
    "tower of height 2 or more unlinked",
    "page taken",
    "block taken",
    "page given back",
    "page given back became block",
    "page given back past a full block",
];

/// The events that the layouts before and after a call show.
pub fn events(before: &Layout, after: &Layout) -> Vec<&'static str> {
    let mut seen = vec!["entries changed"];
    seen.push(match before.count_kept {
        true => "free count kept already",
        false => "free count kept anew",
    });
    let old: BTreeMap<u32, &Table> = before.all_tables().map(|one| (one.root, one)).collect();
    for table in after.all_tables() {
        if let Some(old) = old.get(&table.root) {
            seen.extend(in_table(old, table));
        }
    }
    seen.extend(in_free_list(before, after));
    seen
}

/// Splits, towers and unlinked spans.
fn in_table(old: &Table, new: &Table) -> Vec<&'static str> {
    let mut seen = Vec::new();
    let mut note = |what: &'static str, holds: bool| {
        if holds {
            seen.push(what);
        }
    };
    let raised = new.head.height - old.head.height;
    note("head raised", raised > 0);
    note("head raised by 2 or more", raised > 1);
    let emptied = new.spans[0].entries.is_empty() && !old.spans[0].entries.is_empty();
    note("first span emptied", emptied);
    let gone = old.spans.iter().find(|span| is_none(new, span.page));
    let lost = gone.and_then(|span| span.tower);
    note("span unlinked", gone.is_some());
    note("tower unlinked", lost.is_some());
    let high = lost.is_some_and(|tower| tower.height > 1);
    note("tower of height 2 or more unlinked", high);
    if let Some(place) = new.spans.iter().position(|span| is_none(old, span.page)) {
        let span = &new.spans[place];
        let height = span.tower.map_or(0, |tower| tower.height);
        note("split", true);
        note("split of the metaindex", new.root == METAINDEX);
        note("new tower", height > 0);
        note("new tower of height 2 or more", height > 1);
        let between = new.tower_before(place, 0) != &new.head && new.tower_after(place, 0) != 0;
        note("new tower between others", height > 0 && between);
        let was = old.owners().contains(&(span.page, Kind::Continuation));
        note("old continuation became span", was);
    }
    seen
}

/// Whether no span of the table is on this page.
fn is_none(table: &Table, page: u32) -> bool {
    table.spans.iter().all(|span| span.page != page)
}

/// Pages taken and given back.
fn in_free_list(before: &Layout, after: &Layout) -> Vec<&'static str> {
    let blocks = |layout: &Layout| layout.free.len();
    let mut seen = Vec::new();
    if after.free_pages() < before.free_pages() {
        seen.push("page taken");
    }
    if blocks(after) < blocks(before) {
        seen.push("block taken");
    }
    if after.free_pages() > before.free_pages() {
        seen.push("page given back");
    }
    if blocks(after) > blocks(before) {
        seen.push("page given back became block");
    }
    if blocks(after) > blocks(before) && blocks(before) > 0 {
        seen.push("page given back past a full block");
    }
    seen
}
