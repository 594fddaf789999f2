//! The search by towers (document 02, T-08) against the plain one, on towers as no put makes them.

use reference::compare::tally::cases_table;
use reference::generate::{self, Knobs};
use reference::layout::{Table, Tower};
use reference::random::Random;
use reference::theorems;
use reference::towers::agree::{self, Searched};
use std::collections::{BTreeMap, BTreeSet};

/// How many images are searched.
const IMAGES: u64 = 1_000;
/// How many layouts are made to look at their towers.
const LAYOUTS: u64 = 15_000;

#[test]
fn both_searches_and_both_paths_agree() {
    let reached = agree::searches(0, IMAGES).expect("no difference");
    println!("{}", cases_table(&reached, &agree::all()));
    for case in agree::all() {
        assert!(reached.get(&case) > Some(&100), "{case}");
    }
}

/// What the generator makes of towers in one kind of table.
#[derive(Default)]
struct Made {
    /// The heights of towers other than heads.
    heights: BTreeSet<u16>,
    /// The current heights of heads of tables with several spans.
    heads: BTreeSet<u16>,
    /// How often each of the other things was made.
    seen: BTreeMap<&'static str, u64>,
}

impl Made {
    fn note(&mut self, table: &Table) {
        let heights: BTreeSet<u16> = table.towers().map(|tower| tower.height).collect();
        let current = table.head.height;
        let highest = heights.last().copied().unwrap_or(0);
        let bare = table.spans[1..].iter().filter(|span| span.tower.is_none());
        let of_put = |tower: &Tower| tower.height <= 12 && tower.max == table.head.max;
        let mut add = |what, holds| *self.seen.entry(what).or_default() += u64::from(holds);
        add(
            "current 0, several spans",
            current == 0 && table.spans.len() > 1,
        );
        add("current 252, towers of 252", highest == 252);
        add(
            "current 252, all towers lower",
            current == 252 && (1..252).contains(&highest),
        );
        add(
            "current over 0, no tower",
            current > 0 && heights.is_empty(),
        );
        add(
            "head higher than every tower",
            current > highest && highest > 0,
        );
        add(
            "spans with and without towers",
            bare.count() > 0 && highest > 0,
        );
        add("tower that no put makes", !table.towers().all(of_put));
        let is_every = (1..=current).all(|height| heights.contains(&height));
        add(
            "every height up to current 3 or more",
            current > 2 && is_every,
        );
        if table.spans.len() > 1 {
            self.heads.insert(current);
        }
        self.heights.extend(heights);
    }
}

/// Towers as no put makes them, in the metaindex and in tables of both orders.
#[test]
fn towers_of_every_height_are_made() {
    let mut random = Random::new(1);
    let mut made: [Made; 3] = Default::default();
    for _ in 0..LAYOUTS {
        let layout = generate::layout(&mut random, &Knobs::odd_towers());
        for (searched, table) in Searched::tables(&layout) {
            made[searched as usize].note(table);
        }
    }
    for (searched, made) in Searched::ALL.into_iter().zip(made) {
        println!("{searched:?}: {:?}", made.seen);
        assert!(made.heights.iter().copied().eq(1..=252), "{searched:?}");
        assert!(made.heads.iter().copied().eq(0..=252), "{searched:?}");
        for (what, count) in made.seen {
            assert!(count > 20, "{searched:?}, {what}: {count}");
        }
    }
}

/// Theorems have searches in the metaindex and in tables of both orders, some with a tower passed at the
/// key that is not passed below it.
#[test]
fn theorems_on_searches() {
    let text = theorems::module(1, 300);
    let statements = text.lines().filter_map(|line| line.split_once(" ≡ "));
    let statements: Vec<(&str, &str)> = statements.collect();
    let of = |what: &str, searched: Searched| -> Vec<&str> {
        let claims = statements.iter().filter(|(left, _)| left.contains(what));
        let claims = claims.filter(|(left, _)| searched_by(left) == searched);
        claims.map(|(_, right)| *right).collect()
    };
    for searched in Searched::ALL {
        let paths = of(" : path (begins ", searched);
        let below = of(" : path (begins_below ", searched);
        let places = of(" : by_towers ", searched);
        assert_eq!([paths.len(), below.len(), places.len()], [100; 3]);
        let differ = paths.iter().zip(&below).filter(|(one, other)| one != other);
        let differ = differ.count();
        assert!(differ >= 10, "{searched:?}, paths differ: {differ}");
        let later = places.iter().filter(|place| **place != "0").count();
        assert!(later >= 20, "{searched:?}, later spans: {later}");
    }
}

/// What the left side of a theorem searches, by its rule.
fn searched_by(left: &str) -> Searched {
    if left.contains("name_rule") {
        Searched::Metaindex
    } else if left.contains(&format!("(key_rule (({} ∷", b'#')) {
        Searched::Offsets
    } else {
        Searched::Ordinary
    }
}
