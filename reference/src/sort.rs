//! How the keys of a table sort, by its name.
//!
//! "Every table sorts by unsigned bytes, a proper prefix first" (document 01), the metaindex too. For
//! "tables whose names begin with "#"", here offset tables, that rule is wrong: "there keys are exactly
//! four bytes, two's complement, and sort as numbers from -2147483648 up" (document 02, T-05).

use crate::entries::MAX_LENGTH;
use std::cmp::Ordering;

/// The two orders of keys.
#[derive(Clone, Copy, Debug, PartialEq, Eq)]
pub enum Sort {
    /// Unsigned bytes, a proper prefix first.
    Bytes,
    /// Numbers of four bytes, two's complement.
    Numbers,
}

impl Sort {
    /// How the keys of the table of this name sort.
    pub fn of(name: &[u8]) -> Sort {
        match name.first() {
            Some(b'#') => Sort::Numbers,
            _ => Sort::Bytes,
        }
    }

    /// Whether a table that sorts so may hold this key: "Key 1 to 65,535 bytes", or of an offset
    /// table "exactly four bytes".
    pub fn allows(self, key: &[u8]) -> bool {
        match self {
            Sort::Bytes => (1..=MAX_LENGTH).contains(&key.len()),
            Sort::Numbers => number(key).is_some(),
        }
    }

    /// How two keys compare. The empty key, with which next may be asked, is below all others:
    /// "Next with the empty key still begins at the least."
    pub fn compare(self, one: &[u8], other: &[u8]) -> Ordering {
        match self {
            Sort::Bytes => one.cmp(other),
            Sort::Numbers => number(one).cmp(&number(other)),
        }
    }

    /// "The smallest key above the one asked" among these, which may be in any order.
    pub fn above<'a>(self, keys: impl Iterator<Item = &'a [u8]>, key: &[u8]) -> Option<&'a [u8]> {
        let above = keys.filter(|other| self.compare(other, key).is_gt());
        above.min_by(|one, other| self.compare(one, other))
    }
}

/// The number that a key of an offset table is; `None`, which is below all numbers, for a key that is
/// not four bytes long.
pub fn number(key: &[u8]) -> Option<i32> {
    let bytes = <[u8; 4]>::try_from(key).ok()?;
    Some(i32::from_be_bytes(bytes))
}
