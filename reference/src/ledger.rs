//! The ledger of demand 3: what the history of calls says, without an image.

use crate::layout::{Layout, Table};
use crate::request::{Call, Request};
use crate::sort::Sort;
use std::collections::BTreeMap;

/// A finite map from keys to values. Its order is no table's: only next goes by that.
pub type Map = BTreeMap<Vec<u8>, Vec<u8>>;
/// Table names, each with its map.
pub type Tables = BTreeMap<Vec<u8>, Map>;

/// "The ledger holds table names, each with a finite map from keys to values; it starts with P and
/// the tables of the starting image."
#[derive(Clone, Debug, PartialEq, Eq)]
pub struct Ledger {
    pages: u64,
    tables: Tables,
}

/// What the ledger says of a call. F is not in the ledger.
#[derive(Clone, Debug, Default, PartialEq, Eq)]
pub struct Said {
    pub number: u32,
    pub length: u64,
    pub pages: u64,
    pub tables: u64,
    pub keys: u64,
    /// What a done get or next answers.
    pub bytes: Vec<u8>,
}

/// "An image's tables are the names in its metaindex, each with the map of the entries in its
/// spans."
pub fn tables_of(layout: &Layout) -> Tables {
    let map = |table: &Table| -> Map {
        let entries = table.entries();
        entries
            .map(|entry| (entry.key.clone(), entry.value.clone()))
            .collect()
    };
    let tables = layout.tables.iter();
    tables
        .map(|(name, table)| (name.clone(), map(table)))
        .collect()
}

impl Ledger {
    pub fn new(pages: u64, tables: Tables) -> Ledger {
        Ledger { pages, tables }
    }

    /// P.
    pub fn pages(&self) -> u64 {
        self.pages
    }

    /// The names with their maps.
    pub fn tables(&self) -> &Tables {
        &self.tables
    }

    /// "The ledger is fed the call's kind, name, key and value, the lengths of its scratch and
    /// answer buffer, and, for put and create, whether the answer was 10"; with T-07 of document 02
    /// no longer for remove. `was_ten` says nothing of the other kinds of call.
    pub fn feed(&mut self, request: &Request, was_ten: bool) -> Said {
        let number = self.number(request, was_ten);
        let found = self.asked(&request.call);
        match number {
            0 => {
                let said = self.done(&request.call, found);
                self.change(&request.call);
                said
            }
            9 => Said {
                number,
                length: found.map_or(0, |bytes| bytes.len() as u64),
                ..Said::default()
            },
            _ => Said {
                number,
                ..Said::default()
            },
        }
    }

    /// "Number: the lowest of 2 and 4 to 9 that the refusal table gives on the ledger's tables;
    /// else 10 if that was fed; else 0."
    fn number(&self, request: &Request, was_ten: bool) -> u32 {
        let rows = [
            (2, self.scratch_short(request)),
            (4, bad_name_or_key(&request.call)),
            (5, value_too_long(&request.call)),
            (6, self.no_such_table(&request.call)),
            (7, self.table_exists(&request.call)),
            (8, self.no_such_key(&request.call)),
            (9, self.answer_short(request)),
            (10, no_room(&request.call, was_ten)),
        ];
        let first = rows.iter().find(|(_, holds)| *holds);
        first.map_or(0, |(number, _)| *number)
    }

    fn scratch_short(&self, request: &Request) -> bool {
        (request.scratch_length as u64) < 1024 * self.pages
    }

    /// "get, put, remove, next: no such table"
    fn no_such_table(&self, call: &Call) -> bool {
        match call {
            Call::Get { name, .. }
            | Call::Put { name, .. }
            | Call::Remove { name, .. }
            | Call::Next { name, .. } => !self.tables.contains_key(name),
            Call::Check | Call::Create { .. } => false,
        }
    }

    /// "create: table is there already"
    fn table_exists(&self, call: &Call) -> bool {
        matches!(call, Call::Create { name } if self.tables.contains_key(name))
    }

    /// "get, remove: no such key; next: none above"
    fn no_such_key(&self, call: &Call) -> bool {
        match call {
            Call::Get { .. } | Call::Next { .. } => self.asked(call).is_none(),
            Call::Remove { name, key } => self.value(name, key).is_none(),
            Call::Check | Call::Put { .. } | Call::Create { .. } => false,
        }
    }

    /// "answer buffer shorter than the answer"
    fn answer_short(&self, request: &Request) -> bool {
        let asked = self.asked(&request.call);
        asked.is_some_and(|bytes| request.answer_length < bytes.len())
    }

    fn value(&self, name: &[u8], key: &[u8]) -> Option<Vec<u8>> {
        self.tables.get(name)?.get(key).cloned()
    }

    /// The value or key that a get or next asks for, if there is one.
    fn asked(&self, call: &Call) -> Option<Vec<u8>> {
        match call {
            Call::Get { name, key } => self.value(name, key),
            Call::Next { name, key } => {
                let keys = self.tables.get(name)?.keys().map(Vec::as_slice);
                Sort::of(name).above(keys, key).map(<[u8]>::to_vec)
            }
            _ => None,
        }
    }

    /// The answer of a done call.
    fn done(&self, call: &Call, found: Option<Vec<u8>>) -> Said {
        match call {
            Call::Check => Said {
                pages: self.pages,
                tables: self.tables.len() as u64,
                keys: self.tables.values().map(|map| map.len() as u64).sum(),
                ..Said::default()
            },
            _ => {
                let bytes = found.unwrap_or_default();
                Said {
                    length: bytes.len() as u64,
                    bytes,
                    ..Said::default()
                }
            }
        }
    }

    /// "Done: put gives the key this value, remove drops the key, create adds the name with an
    /// empty map; the rest change nothing."
    fn change(&mut self, call: &Call) {
        match call {
            Call::Put { name, key, value } => {
                if let Some(map) = self.tables.get_mut(name) {
                    map.insert(key.clone(), value.clone());
                }
            }
            Call::Remove { name, key } => {
                if let Some(map) = self.tables.get_mut(name) {
                    map.remove(key);
                }
            }
            Call::Create { name } => {
                self.tables.insert(name.clone(), Map::new());
            }
            Call::Check | Call::Get { .. } | Call::Next { .. } => {}
        }
    }
}

/// "table name not as above; key empty (but for next) or over 65,535"; "also for a key of another
/// length under such a name, table there or not (next may still be empty)" (document 02, T-05)
fn bad_name_or_key(call: &Call) -> bool {
    match call {
        Call::Check => false,
        Call::Create { name } => bad_name(name),
        Call::Next { name, key } => bad_name(name) || !key.is_empty() && bad_key(name, key),
        Call::Get { name, key } | Call::Put { name, key, .. } | Call::Remove { name, key } => {
            bad_name(name) || bad_key(name, key)
        }
    }
}

/// "1 to 255 bytes of 21 to 7e hex"
fn bad_name(name: &[u8]) -> bool {
    name.is_empty() || name.len() > 255 || !name.iter().all(u8::is_ascii_graphic)
}

/// A key that the table of this name may not hold.
fn bad_key(name: &[u8], key: &[u8]) -> bool {
    !Sort::of(name).allows(key)
}

/// "value over 65,535"
fn value_too_long(call: &Call) -> bool {
    matches!(call, Call::Put { value, .. } if value.len() > 65_535)
}

/// "put, create: wanted pages exceed the old continuation pages plus F", which the ledger knows only
/// by what it is fed; "10 is no longer listed for remove" (document 02, T-07)
fn no_room(call: &Call, was_ten: bool) -> bool {
    was_ten && matches!(call, Call::Put { .. } | Call::Create { .. })
}
