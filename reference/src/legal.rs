//! "Well-formed" said a second time, over layouts: an image is well-formed exactly if there is a
//! legal layout that says every used byte of it.
//!
//! Links, marks and counts need no rule here, since they follow from the layout.

use crate::audit::{owned_once, says_every_used_byte};
use crate::check;
use crate::entries::{continuations, Entry, MAX_LENGTH};
use crate::layout::{Layout, Table, Tower};
use crate::page::{MAX_NUMBERS, MAX_PAGES, METAINDEX, MIN_PAGES};
use crate::sort::Sort;

/// Whether the layout that a walk finds on the image, well-formed or not, is legal and says every
/// used byte.
pub fn well_formed(image: &[u8]) -> bool {
    let Some((layout, _)) = check::walk(image) else {
        return false;
    };
    legal(&layout) && says_every_used_byte(image, &layout).is_ok()
}

/// Whether a layout keeps the rules.
pub fn legal(layout: &Layout) -> bool {
    (MIN_PAGES..=MAX_PAGES).contains(&(layout.pages as usize))
        && matches!(layout.mounted, 0 | 1)
        && matches!(layout.span_size, 2..=128)
        && owned_once(layout).is_ok()
        && layout
            .free
            .iter()
            .all(|block| block.listed.len() <= MAX_NUMBERS)
        && layout
            .sorted_tables()
            .all(|(sort, table)| legal_table(sort, table))
        && legal_names(layout)
}

/// The metaindex is on page 2 and holds exactly the tables, under legal names.
fn legal_names(layout: &Layout) -> bool {
    let named = |(entry, (name, table)): (&Entry, &(Vec<u8>, Table))| {
        entry.key == *name
            && entry.value == table.root.to_be_bytes()
            && matches!(name.len(), 1..=255)
            && name.iter().all(|byte| matches!(byte, 0x21..=0x7e))
    };
    layout.meta.root == METAINDEX
        && layout.meta.keys() == layout.tables.len()
        && layout.meta.entries().zip(&layout.tables).all(named)
}

fn legal_table(sort: Sort, table: &Table) -> bool {
    let keys: Vec<&[u8]> = table.entries().map(|entry| &entry.key[..]).collect();
    let Some((first, others)) = table.spans.split_first() else {
        return false;
    };
    matches!(table.span_size, 2..=128)
        && keys.iter().all(|key| sort.allows(key))
        && keys
            .windows(2)
            .all(|pair| sort.compare(pair[0], pair[1]).is_lt())
        && table.entries().all(|entry| entry.value.len() <= MAX_LENGTH)
        && others.iter().all(|span| !span.entries.is_empty())
        && table.spans.iter().all(|span| {
            span.entries.len() <= usize::from(table.span_size)
                && span.continuations.len() == continuations(&span.entries)
        })
        && first.tower.is_none()
        && legal_tower(&table.head)
        && table
            .towers()
            .all(|tower| legal_tower(tower) && (1..=table.head.height).contains(&tower.height))
}

fn legal_tower(tower: &Tower) -> bool {
    matches!(tower.max, 1..=252) && tower.height <= tower.max
}
