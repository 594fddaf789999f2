//! Both searches and both paths beside one another, for the keys of an image and those near to them; and
//! what was reached.

use super::{descend, path, plain, search, Bound, Path, Sought};
use crate::check::{check, name_rules};
use crate::compare::tally::add_all;
use crate::entries::MAX_LENGTH;
use crate::fuzz::Failure;
use crate::generate::{self, Knobs};
use crate::layout::{Layout, Table};
use crate::numbers;
use crate::page::MAX_NUMBERS;
use crate::random::Random;
use crate::reached::{count, held, Cases};
use crate::script::{self, Script};
use crate::sort::Sort;

/// How many calls are made on an image before the searches, if any are.
const CALLS: usize = 20;

/// What is searched: names, or the keys of one or the other order.
#[derive(Clone, Copy, Debug, PartialEq, Eq)]
pub enum Searched {
    Metaindex,
    Ordinary,
    Offsets,
}

impl Searched {
    pub const ALL: [Searched; 3] = [Searched::Metaindex, Searched::Ordinary, Searched::Offsets];

    /// The metaindex and all tables of an image, each with what it is.
    pub fn tables(layout: &Layout) -> impl Iterator<Item = (Searched, &Table)> {
        let of_name = |name: &[u8]| match Sort::of(name) {
            Sort::Bytes => Searched::Ordinary,
            Sort::Numbers => Searched::Offsets,
        };
        let tables = layout.tables.iter();
        let named = tables.map(move |(name, table)| (of_name(name), table));
        std::iter::once((Searched::Metaindex, &layout.meta)).chain(named)
    }

    pub fn sort(self) -> Sort {
        match self {
            Searched::Metaindex | Searched::Ordinary => Sort::Bytes,
            Searched::Offsets => Sort::Numbers,
        }
    }

    /// Whether it may hold this key.
    pub fn allows(self, key: &[u8]) -> bool {
        match self {
            Searched::Metaindex => name_rules(key).is_empty(),
            _ => self.sort().allows(key),
        }
    }

    /// The smallest and the largest key that it may hold.
    pub fn ends(self) -> [Vec<u8>; 2] {
        match self {
            Searched::Metaindex => [vec![0x21], vec![0x7e; 255]],
            Searched::Ordinary => [vec![0], vec![0xff; MAX_LENGTH]],
            Searched::Offsets => [i32::MIN, i32::MAX].map(numbers::key),
        }
    }
}

/// The cases, each of the metaindex, of an ordinary table and of an offset table.
const CASES: [&str; 22] = [
    "head's current 0",
    "head's current 1",
    "head's current 2 to 251",
    "head's current 252",
    "head higher than every tower",
    "the head passed at every level",
    "the head passed at some levels, a tower at others",
    "a tower passed at every level",
    "several towers passed",
    "252 levels, several towers passed",
    "empty first span, others follow",
    "empty first span, no other follows",
    "key in the first span",
    "key in an empty first span, others follow",
    "key in a span with a tower",
    "key in a span without a tower",
    "key below all others",
    "key that is there",
    "key that is not there",
    "walk from the first span over others",
    "walk from a tower over other spans",
    "key that a span with a tower begins with",
];

/// All cases.
pub fn all() -> Vec<String> {
    let of = |searched| CASES.iter().map(move |case| named(searched, case));
    Searched::ALL.into_iter().flat_map(of).collect()
}

fn named(searched: Searched, case: &str) -> String {
    format!("{searched:?}: {case}")
}

/// Compares the searches on `count` images, for the seeds from `seed` on, and counts what they reach.
pub fn searches(seed: u64, count: u64) -> Result<Cases, Failure> {
    let mut cases = Cases::new();
    for seed in (0..count).map(|step| seed.wrapping_add(step)) {
        let reached = on_seed(seed).map_err(|what| Failure { seed, what })?;
        add_all(&mut cases, reached);
    }
    Ok(cases)
}

/// Compares the searches on the image of a seed: one that no call made, or what a list of calls made of
/// it.
fn on_seed(seed: u64) -> Result<Cases, String> {
    let mut random = Random::new(seed ^ 0x7365_6172_6368_6573);
    let knobs = match random.below(10) {
        0 | 1 => Knobs::tiny(),
        2 | 3 => Knobs::mixed(),
        4 => Knobs::many_small(),
        5 | 6 => Knobs::full_of_towers(),
        _ => Knobs::odd_towers(),
    };
    let image = match random.percent(25) {
        true => after_calls(script::script_on(&mut random, &knobs, CALLS)),
        false => generate::sample(&mut random, &knobs).image,
    };
    let layout = check(&image).map_err(|broken| format!("rejected: {}", broken[0]))?;
    on_image(&image, &layout)
}

/// The image after a list of calls.
fn after_calls(script: Script) -> Vec<u8> {
    let mut image = script.sample.image;
    for request in script.requests {
        let (mut scratch, mut answer) = request.buffers();
        request.run(&mut image, &mut scratch, &mut answer);
    }
    image
}

/// Compares the searches in the metaindex and every table of an accepted image.
pub fn on_image(image: &[u8], layout: &Layout) -> Result<Cases, String> {
    let mut cases = Cases::new();
    for (searched, table) in Searched::tables(layout) {
        for key in keys(searched, table) {
            let sort = searched.sort();
            let outcome = of_key(image, table, sort, &key);
            outcome.map_err(|what| format!("{searched:?}, key {}: {what}", shown(&key)))?;
            let reached = reached(table, sort, &key);
            count(&mut cases, reached.iter().map(|case| named(searched, case)));
        }
    }
    Ok(cases)
}

/// The key for a message, cut where it is long.
fn shown(key: &[u8]) -> String {
    let begin = &key[..key.len().min(32)];
    format!("{} of {} bytes", begin.escape_ascii(), key.len())
}

/// The keys of a table, those beside each of them, and the smallest and the largest that it may hold.
fn keys(searched: Searched, table: &Table) -> Vec<Vec<u8>> {
    let mut keys: Vec<Vec<u8>> = searched.ends().into();
    for entry in table.entries() {
        keys.push(entry.key.clone());
        keys.extend(beside(&entry.key));
    }
    keys.retain(|key| searched.allows(key));
    keys
}

/// The keys beside a key of a table; not every table may hold them.
pub fn beside(key: &[u8]) -> [Vec<u8>; 4] {
    let last = key.len() - 1;
    let (mut above, mut below) = (key.to_vec(), key.to_vec());
    above[last] = key[last].wrapping_add(1);
    below[last] = key[last].wrapping_sub(1);
    let mut longer = key.to_vec();
    longer.push(0x21);
    [above, below, longer, key[..last].to_vec()]
}

/// Whether all ways to search for a key agree.
fn of_key(image: &[u8], table: &Table, sort: Sort, key: &[u8]) -> Result<(), String> {
    let mut ends = Vec::new();
    let mut paths = Vec::new();
    for bound in [Bound::AtOrBelow, Bound::Below] {
        let sought = Sought { sort, key, bound };
        let said = path(table, &sought);
        let found = search(image, table.root, &sought);
        let same_span = found == plain(image, table.root, &sought);
        require(descend(image, table.root, &sought) == said, "another path")?;
        require(same_span, "another span than by the plain search")?;
        ends.push(found);
        paths.push(said);
    }
    let place = table.target(sort, key);
    require(ends[0] == table.spans[place].page, "not the target span")?;
    // A put links the tower of the span that follows the target.
    require(leads_to(&paths[0], table, place + 1), "another link of put")?;
    let entries = &table.spans[place].entries;
    let is_first = entries.first().is_some_and(|entry| entry.key == key);
    if is_first && place > 0 {
        // A remove takes the span that begins with the key out, and its tower.
        let before = table.spans[place - 1].page;
        require(ends[1] == before, "not the span before")?;
        require(leads_to(&paths[1], table, place), "another link of remove")?;
    }
    Ok(())
}

fn require(holds: bool, what: &str) -> Result<(), String> {
    match holds {
        true => Ok(()),
        false => Err(what.to_owned()),
    }
}

/// Whether a path has the towers before the span at this place, at each level, and 0 from its height on.
fn leads_to(path: &Path, table: &Table, place: usize) -> bool {
    let mut levels = path.passed.iter().enumerate();
    path.height == usize::from(table.head.height)
        && levels.all(|(level, page)| match level < path.height {
            true => *page == table.tower_before(place, level).page,
            false => *page == 0,
        })
}

/// What the search for a key reaches.
fn reached(table: &Table, sort: Sort, key: &[u8]) -> Vec<String> {
    let bound = Bound::AtOrBelow;
    let path = path(table, &Sought { sort, key, bound });
    let mut cases = of_heights(table, &path);
    cases.extend(of_spans(table, sort, key, &path));
    cases
}

/// The head's current, and whether the head or other towers are passed.
fn of_heights(table: &Table, path: &Path) -> Vec<String> {
    let levels = &path.passed[..path.height];
    let heads = levels.iter().filter(|page| **page == table.head.page);
    let heads = heads.count();
    let others = levels.len() - heads;
    let mut towers: Vec<u32> = levels.to_vec();
    towers.retain(|page| *page != table.head.page);
    towers.dedup();
    let highest = table.towers().map(|tower| tower.height).max().unwrap_or(0);
    let several = towers.len() > 1;
    held(&[
        ("head's current 0", path.height == 0),
        ("head's current 1", path.height == 1),
        (
            "head's current 2 to 251",
            (2..MAX_NUMBERS).contains(&path.height),
        ),
        ("head's current 252", path.height == MAX_NUMBERS),
        (
            "head higher than every tower",
            table.head.height > highest && highest > 0,
        ),
        ("the head passed at every level", heads > 0 && others == 0),
        (
            "the head passed at some levels, a tower at others",
            heads > 0 && others > 0,
        ),
        ("a tower passed at every level", heads == 0 && others > 0),
        ("several towers passed", several),
        (
            "252 levels, several towers passed",
            path.height == MAX_NUMBERS && several,
        ),
    ])
}

/// Where the key is or would be, and what the walk goes over.
fn of_spans(table: &Table, sort: Sort, key: &[u8], path: &Path) -> Vec<String> {
    let place = table.target(sort, key);
    let target = &table.spans[place];
    let is_empty = table.spans[0].entries.is_empty();
    let is_alone = table.spans.len() == 1;
    let has_tower = target.tower.is_some();
    let is_there = table.value(key).is_some();
    let first = target.entries.first().map(|entry| entry.key.as_slice());
    let is_below = first.is_some_and(|first| sort.compare(key, first).is_lt());
    let from_head = path.height > 0 && path.passed[0] == table.head.page;
    let from_tower = path.height > 0 && path.passed[0] != table.head.page;
    held(&[
        ("empty first span, others follow", is_empty && !is_alone),
        ("empty first span, no other follows", is_empty && is_alone),
        ("key in the first span", place == 0),
        (
            "key in an empty first span, others follow",
            place == 0 && is_empty && !is_alone,
        ),
        ("key in a span with a tower", has_tower),
        ("key in a span without a tower", place > 0 && !has_tower),
        ("key below all others", is_below),
        ("key that is there", is_there),
        ("key that is not there", !is_there),
        (
            "walk from the first span over others",
            from_head && place > 0,
        ),
        (
            "walk from a tower over other spans",
            from_tower && !has_tower,
        ),
        (
            "key that a span with a tower begins with",
            has_tower && first == Some(key),
        ),
    ])
}
