//! What was compared, and tables of it.

use super::cases::Source;
use crate::pairs::neighbours::Covered;
use crate::reached::Cases;
use crate::request::CallKind;
use std::collections::BTreeMap;
use std::fmt::Display;
use std::ops::RangeInclusive;

/// Calls by kind and number.
pub type Called = BTreeMap<(CallKind, u32), u64>;

/// What was compared.
#[derive(Clone, Debug, Default)]
pub struct Tally {
    /// Images by how they were made and the number that check answered.
    pub images: BTreeMap<(Source, u32), u64>,
    /// Images by P, with 0 for a length that no image has.
    pub sizes: BTreeMap<u32, u64>,
    pub calls: Called,
    /// The cases that were reached of those aimed at.
    pub cases: Cases,
    /// What pairs of keys covered.
    pub pairs: BTreeMap<Covered, u64>,
}

impl Tally {
    /// Adds what another tally tells.
    pub fn add(&mut self, other: Tally) {
        add_all(&mut self.images, other.images);
        add_all(&mut self.sizes, other.sizes);
        add_all(&mut self.calls, other.calls);
        add_all(&mut self.cases, other.cases);
        add_all(&mut self.pairs, other.pairs);
    }
}

/// Adds what one map counts to another.
pub(crate) fn add_all<K: Ord>(counts: &mut BTreeMap<K, u64>, more: BTreeMap<K, u64>) {
    for (key, count) in more {
        *counts.entry(key).or_default() += count;
    }
}

/// The images that were checked, as a table: how they were made, how often check answered each
/// number, and then how many images there were of which size.
pub fn images_table(tally: &Tally) -> String {
    let mut rows: BTreeMap<Source, [u64; 4]> = BTreeMap::new();
    for ((source, number), count) in &tally.images {
        rows.entry(*source).or_default()[*number as usize] += count;
    }
    let mut lines = vec![images_line("images", "all", ["0", "1", "2", "3"])];
    for (source, counts) in rows {
        let name = match source {
            Source::Damaged(rule) => rule.to_string(),
            other => format!("{other:?}"),
        };
        let all: u64 = counts.iter().sum();
        lines.push(images_line(&name, all, counts));
    }
    for (name, range) in SIZES {
        let of_size = tally.sizes.iter().filter(|(size, _)| range.contains(size));
        let count: u64 = of_size.map(|(_, count)| count).sum();
        lines.push(format!("{name:24}{count:>8}"));
    }
    lines.join("\n") + "\n"
}

fn images_line<T: Display>(name: &str, all: T, numbers: [T; 4]) -> String {
    let [done, one, two, three] = numbers;
    format!("{name:24}{all:>8}{done:>8}{one:>8}{two:>8}{three:>8}")
}

/// The sizes of images that the table tells apart.
const SIZES: [(&str, RangeInclusive<u32>); 6] = [
    ("4 pages", 4..=4),
    ("5 to 32 pages", 5..=32),
    ("33 to 256 pages", 33..=256),
    ("257 to 4095 pages", 257..=4095),
    ("4096 pages", 4096..=4096),
    ("another length", 0..=0),
];

/// Calls by kind (rows) and number (columns), as a table.
pub fn calls_table(called: &Called) -> String {
    let header: Vec<String> = (0..=10).map(|number| format!("{number:>7}")).collect();
    let mut lines = vec![format!("{:8}{}", "calls", header.concat())];
    for kind in CallKind::ALL {
        let count = |number: u32| called.get(&(kind, number)).copied().unwrap_or(0);
        let row: Vec<String> = (0..=10).map(|one| format!("{:>7}", count(one))).collect();
        lines.push(format!("{kind:8}{}", row.concat()));
    }
    lines.join("\n") + "\n"
}

/// How often each of these cases was reached, as a table.
pub fn cases_table(reached: &Cases, cases: &[String]) -> String {
    let count = |case: &String| reached.get(case).copied().unwrap_or(0);
    let line = |case: &String| format!("{case:64}{:>8}\n", count(case));
    cases.iter().map(line).collect()
}
