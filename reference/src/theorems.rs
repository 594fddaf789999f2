//! Random images, calls and searches by towers as theorems of the trusted text.
//!
//! What this program makes of a call or a search stands on one side of each theorem, the definitions of
//! `crates/blockfile/specs` on the other; the checker computes whether they agree.

use crate::check;
use crate::encode;
use crate::entries::Entry;
use crate::generate::{self, Knobs, HASH_NAMES};
use crate::layout::{Block, Layout, Span, Table, Tower};
use crate::numbers;
use crate::page::PAGE;
use crate::random::Random;
use crate::request::{Call, Request};
use crate::sort::Sort;
use crate::towers::agree::{beside, Searched};
use crate::towers::{self, Bound, Sought};
use std::fmt::{Display, Write};

/// The module's `use` lines and the definitions that the theorems need.
const HEAD: &str = include_str!("theorems-head.txt");

/// The definitions that the checker opens to compute an outcome.
const OUTCOME: &str = "outcome_on on_table ledger_of refused free_count lacks layout_after writes_of changes_of put_plan remove_plan unlink_plan unlinking \
create_plan whole_table rewrite_plan target span_at parts wanted_by share new_height count_trailing_zeros reached lens_start entry_end draw rewrite table_after \
rewriting relink name_rule key_rule whole_span whole_tower whole_skip_list counts word32 word16 super_mark skip_mark tower_mark span_mark cont_mark block_mark \
free_mark";

/// The definitions that the checker opens to read an image.
const IMAGE: &str = "be16 be32 be64 word32 free_count reached lens_start entry_end name_rule key_rule super_mark skip_mark tower_mark span_mark cont_mark block_mark free_mark";

/// The definitions that the checker opens to compute a path.
const PATH: &str = "path passed name_rule key_rule";

/// The definitions that the checker opens to compute the place at which a search ends.
const SEARCH: &str = "by_towers name_rule key_rule";

/// No longer key is searched for: the text compares it with those of a table anew at every level.
const LONGEST_SOUGHT: usize = 16;

/// How often the image has no page free and the call is a remove of a key that is there.
const FULL_EVERY: u64 = 4;

/// How often the image has to have an offset table with keys, which is searched; others may have one
/// too.
const OFFSETS_EVERY: u64 = 3;

/// After so many images the kinds of keys that are searched for come again. In three of them the table
/// that is searched has towers.
const TURNS: u64 = 5;

/// How many towers it has then at least, the head not counted.
const TOWERS: usize = 2;

/// A module of theorems on `count` images with a call and a search each.
pub fn module(seed: u64, count: u64) -> String {
    let mut random = Random::new(seed);
    let mut text = HEAD.to_owned();
    for number in 1..=count {
        let layout = layout(&mut random, number);
        let image = image(&mut random, &layout);
        let call = match number % FULL_EVERY {
            0 => remove(&mut random, &layout),
            _ => call(&mut random, &layout),
        };
        let room = *random.pick(&[0, 1, 2, 4, 5000, 5000]);
        claims(&mut text, number, &image, &layout, call, room);
        let search = search(&mut random, number, &layout);
        search_claims(&mut text, number, &search);
    }
    text
}

/// What is searched in an image.
fn wanted(number: u64) -> Searched {
    match number % OFFSETS_EVERY {
        0 => Searched::Offsets,
        1 => Searched::Metaindex,
        _ => Searched::Ordinary,
    }
}

/// A small layout, with no page free or any number of them, that has the table to search. The bytes of a
/// value are the same, so that they take few words to write down.
fn layout(random: &mut Random, number: u64) -> Layout {
    let (knobs, towers) = match number % TURNS {
        0..=2 => (with_towers(), TOWERS),
        _ => (with_long_entries(), 0),
    };
    let is_wanted = |(searched, table): (Searched, &Table)| {
        let has_keys = searched == Searched::Metaindex || table.keys() > 0;
        searched == wanted(number) && table.levels() > towers && has_keys
    };
    let mut layout = loop {
        let layout = match number % FULL_EVERY {
            0 => generate::full_layout(random, &knobs),
            _ => generate::layout(random, &knobs),
        };
        if Searched::tables(&layout).any(is_wanted) {
            break layout;
        }
    };
    for (_, table) in &mut layout.tables {
        for span in &mut table.spans {
            for entry in &mut span.entries {
                entry.value.fill(random.below(256) as u8);
            }
        }
    }
    layout
}

/// Few tables and spans, with entries over several pages.
fn with_long_entries() -> Knobs {
    Knobs {
        pages: 10..=30,
        tables: 1..=2,
        spans: 1..=4,
        ..Knobs::tiny()
    }
}

/// More tables and spans, most of them with a tower.
fn with_towers() -> Knobs {
    Knobs {
        pages: 10..=20,
        tables: 1..=3,
        spans: 2..=6,
        ..Knobs::full_of_towers()
    }
}

/// The image of a layout, whose unused bytes are the same within a page.
fn image(random: &mut Random, layout: &Layout) -> Vec<u8> {
    let mut image = Vec::new();
    for _ in 0..layout.pages {
        image.extend(vec![random.below(256) as u8; PAGE]);
    }
    encode::layout(&mut image, layout);
    image
}

/// A call, mostly one that changes the image.
fn call(random: &mut Random, layout: &Layout) -> Call {
    let name = name(random, layout);
    let key = key(random, layout, &name);
    match random.below(12) {
        0 => Call::Check,
        1 => Call::Get { name, key },
        2 => Call::Next { name, key },
        3 => Call::Create {
            name: random
                .pick(&[&b"b"[..], b"camx", b"zz", b"#", b"#z", b"z#"])
                .to_vec(),
        },
        4 => Call::Next {
            name,
            key: Vec::new(),
        },
        5..=7 => Call::Remove { name, key },
        _ => {
            let length = *random.pick(&[0, 1, 2, 2, 2, 700, 999, 2000]);
            let value = vec![random.below(256) as u8; length];
            Call::Put { name, key, value }
        }
    }
}

/// The name of a table, of an offset table more often; sometimes of one that may not be there.
fn name(random: &mut Random, layout: &Layout) -> Vec<u8> {
    let tables = layout.tables.iter();
    let mut names: Vec<&[u8]> = tables.map(|(name, _)| name.as_slice()).collect();
    if names.is_empty() || random.percent(8) {
        return random.pick(&HASH_NAMES).to_vec();
    }
    let is_offset = |name: &&[u8]| Sort::of(name) == Sort::Numbers;
    if names.iter().any(is_offset) && random.percent(60) {
        names.retain(is_offset);
    }
    random.pick(&names).to_vec()
}

/// A remove of one of the keys, or a check where there are none.
fn remove(random: &mut Random, layout: &Layout) -> Call {
    let mut calls = Vec::new();
    for (name, table) in &layout.tables {
        calls.extend(table.entries().map(|entry| (name, &entry.key)));
    }
    if calls.is_empty() {
        return Call::Check;
    }
    let (name, key) = *random.pick(&calls);
    Call::Remove {
        name: name.clone(),
        key: key.clone(),
    }
}

/// A key of the table, or one beside it; in an offset table sometimes one of another length.
fn key(random: &mut Random, layout: &Layout, name: &[u8]) -> Vec<u8> {
    let sort = Sort::of(name);
    let table = layout.find(name).map(|place| &layout.tables[place].1);
    let keys: Vec<&Entry> = table.map_or(Vec::new(), |table| table.entries().collect());
    if keys.is_empty() || random.percent(20) {
        let few = [&b"a"[..], b"cam", b"cam1", b"\x7f", b"\x80"];
        return match sort {
            Sort::Numbers if random.percent(80) => numbers::any_key(random),
            _ => random.pick(&few).to_vec(),
        };
    }
    let mut key = keys[random.below(keys.len())].key.clone();
    if random.percent(40) {
        match sort {
            Sort::Numbers if random.percent(60) => key = numbers::beside(random, &key),
            _ => key.push(random.below(256) as u8),
        }
    }
    key
}

/// The theorems on one image: it bears its layout, which keeps the rules, and its count of free pages;
/// and what the call answers, writes and leaves.
fn claims(text: &mut String, number: u64, image: &[u8], layout: &Layout, call: Call, room: usize) {
    let operation = operation(&call);
    let request = Request {
        call,
        scratch_length: image.len(),
        answer_length: room,
        fill: 0,
    };
    let (mut scratch, mut answer) = request.buffers();
    let mut after = image.to_vec();
    let reply = request.run(&mut after, &mut scratch, &mut answer);
    let handed = match (reply.number, &request.call) {
        (0, Call::Get { .. } | Call::Next { .. }) => &answer[..reply.length as usize],
        _ => &[],
    };
    let left = check::check(&after).expect("a call leaves a well-formed image");

    define(text, &format!("L{number}"), "Layout", &layout_text(layout));
    define(text, &format!("M{number}"), "Layout", &layout_text(&left));
    define(
        text,
        &format!("before{number}"),
        "List (List ℕ)",
        &pages_text(image),
    );
    define(
        text,
        &format!("after{number}"),
        "List (List ℕ)",
        &pages_text(&after),
    );
    let outcome = format!("outcome_on L{number} ({operation}) {room}");
    let reply = format!(
        "record {{ number = {}; len = {}; pages = {}; tables = {}; keys = {}; free = {} }}",
        reply.number, reply.length, reply.pages, reply.tables, reply.keys, reply.free
    );
    let opened = format!("L{number} M{number} before{number} after{number} {OUTCOME}");
    theorem(
        text,
        &format!("reply{number}"),
        &format!("({outcome}).reply ≡ {reply}"),
        &opened,
        "refl",
    );
    theorem(
        text,
        &format!("handed{number}"),
        &format!("({outcome}).bytes ≡ {}", row_text(handed)),
        &opened,
        "refl",
    );
    theorem(
        text,
        &format!("written{number}"),
        &format!("paged ({outcome}).writes 1 before{number} ≡ after{number}"),
        &opened,
        "refl",
    );
    theorem(
        text,
        &format!("layout{number}"),
        &format!("left_by L{number} ({operation}) ({outcome}).reply.number ≡ M{number}"),
        &opened,
        "refl",
    );
    let opened = format!("L{number} before{number} {IMAGE}");
    theorem(
        text,
        &format!("bears{number}"),
        &format!("Every (Bears (λ n. get_or before{number} (n - 1) [])) (pieces L{number})"),
        &opened,
        &bears_text(layout),
    );
    theorem(
        text,
        &format!("kept{number}"),
        &format!("KeptCount (free_count L{number}.free) (be32 (get_or before{number} 0 []) 28)"),
        &opened,
        match layout.count_kept {
            false => "inl refl",
            true => "inr refl",
        },
    );
    theorem(
        text,
        &format!("meta{number}"),
        &format!("TableOk name_rule L{number}.meta"),
        &opened,
        &rules_text(&layout.meta),
    );
    for (place, (name, table)) in layout.tables.iter().enumerate() {
        let statement = format!(
            "TableOk (key_rule ({})) ({})",
            row_text(name),
            table_text(table)
        );
        theorem(
            text,
            &format!("table{number}x{place}"),
            &statement,
            IMAGE,
            &rules_text(table),
        );
    }
}

/// A key to search for in a table.
struct Search<'a> {
    sort: Sort,
    table: &'a Table,
    key: Vec<u8>,
    /// The rule of the table's keys, and the table, in the text's notation.
    rule: String,
    term: String,
}

/// A search in the table with the most towers of those that are searched in this image.
fn search<'a>(random: &mut Random, number: u64, layout: &'a Layout) -> Search<'a> {
    let tables = Searched::tables(layout).enumerate();
    let of_kind = tables.filter(|(_, (searched, _))| *searched == wanted(number));
    let found = of_kind.max_by_key(|(_, (_, table))| table.levels());
    let (place, (searched, table)) = found.expect("the image has such a table");
    let (rule, term) = match place.checked_sub(1) {
        None => ("name_rule".to_owned(), format!("L{number}.meta")),
        Some(place) => (
            format!("(key_rule {})", row_text(&layout.tables[place].0)),
            format!("(table_at L{number} {place})"),
        ),
    };
    Search {
        sort: searched.sort(),
        table,
        key: sought(random, number, searched, table),
        rule,
        term,
    }
}

/// A key that is there, one beside it, or the smallest that may be there, which mostly is below all.
fn sought(random: &mut Random, number: u64, searched: Searched, table: &Table) -> Vec<u8> {
    let [smallest, _] = searched.ends();
    let Some(key) = short_key(random, table) else {
        return smallest;
    };
    let mut near = beside(key).to_vec();
    near.retain(|key| searched.allows(key));
    match number % TURNS {
        0 => smallest,
        1 | 3 => key.to_vec(),
        _ => random.pick(&near).clone(),
    }
}

/// A key of the table that is not long; more often one that a span with a tower begins with.
fn short_key<'a>(random: &mut Random, table: &'a Table) -> Option<&'a [u8]> {
    let is_short = |entry: &&Entry| entry.key.len() < LONGEST_SOUGHT;
    let towered = table.spans.iter().filter(|span| span.tower.is_some());
    let firsts = towered.filter_map(|span| span.entries.first());
    let firsts: Vec<&Entry> = firsts.filter(is_short).collect();
    let all: Vec<&Entry> = table.entries().filter(is_short).collect();
    let keys = match !firsts.is_empty() && random.percent(60) {
        true => firsts,
        false => all,
    };
    (!keys.is_empty()).then(|| random.pick(&keys).key.as_slice())
}

/// The theorems on a search: the towers that it passes with either bound, and the place where it ends.
fn search_claims(text: &mut String, number: u64, search: &Search) {
    let Search { sort, table, .. } = *search;
    let key = &search.key;
    let terms = format!("{} {}", search.rule, row_text(key));
    for (name, begins, bound) in [
        ("path", "begins", Bound::AtOrBelow),
        ("path_below", "begins_below", Bound::Below),
    ] {
        let path = towers::path(table, &Sought { sort, key, bound });
        let passed = row_text(&path.passed[..path.height]);
        theorem(
            text,
            &format!("{name}{number}"),
            &format!("path ({begins} {terms}) {} ≡ {passed}", search.term),
            &format!("L{number} {PATH}"),
            "refl",
        );
    }
    let place = table.target(sort, key);
    theorem(
        text,
        &format!("by_towers{number}"),
        &format!("by_towers {terms} {} ≡ {place}", search.term),
        &format!("L{number} {SEARCH}"),
        "refl",
    );
}

fn define(text: &mut String, name: &str, kind: &str, value: &str) {
    writeln!(text, "\n{name} : {kind}\n{name} = {value}").expect("writing to a string");
}

fn theorem(text: &mut String, name: &str, statement: &str, opened: &str, proof: &str) {
    writeln!(
        text,
        "\n{name} : {statement}\nunfolding {opened}\n{name} = {proof}"
    )
    .expect("writing to a string");
}

fn operation(call: &Call) -> String {
    match call {
        Call::Check => "check".to_owned(),
        Call::Get { name, key } => format!("get {} {}", row_text(name), row_text(key)),
        Call::Next { name, key } => format!("next {} {}", row_text(name), row_text(key)),
        Call::Remove { name, key } => format!("remove {} {}", row_text(name), row_text(key)),
        Call::Create { name } => format!("create {}", row_text(name)),
        Call::Put { name, key, value } => {
            format!(
                "put {} {} {}",
                row_text(name),
                row_text(key),
                row_text(value)
            )
        }
    }
}

/// A list in the text's notation.
fn list<T>(items: &[T], one: impl Fn(&T) -> String) -> String {
    let mut text = String::from("(");
    for item in items {
        text += &one(item);
        text += " ∷ ";
    }
    text + "[])"
}

fn numbers(items: &[u32]) -> String {
    list(items, u32::to_string)
}

/// Bytes or page numbers, with runs of the same one said once.
fn row_text<T: Copy + PartialEq + Display>(row: &[T]) -> String {
    const RUN: usize = 6;
    let mut parts = Vec::new();
    let mut single: Vec<T> = Vec::new();
    let mut rest = row;
    while let Some(&first) = rest.first() {
        let run = rest.iter().take_while(|&&one| one == first).count();
        if run < RUN {
            single.extend(&rest[..run]);
        } else {
            if !single.is_empty() {
                parts.push(list(&single, T::to_string));
                single.clear();
            }
            parts.push(format!("replicate {run} {first}"));
        }
        rest = &rest[run..];
    }
    if !single.is_empty() || parts.is_empty() {
        parts.push(list(&single, T::to_string));
    }
    let last = parts.pop().expect("there is a part");
    let joined = parts
        .iter()
        .rev()
        .fold(last, |rest, part| format!("{part} ++ ({rest})"));
    format!("({joined})")
}

fn pages_text(image: &[u8]) -> String {
    let pages: Vec<&[u8]> = image.chunks(PAGE).collect();
    list(&pages, |page| row_text(page))
}

fn layout_text(layout: &Layout) -> String {
    let tables = list(&layout.tables, |(name, table)| {
        format!(
            "record {{ key = {}; value = {} }}",
            row_text(name),
            table_text(table)
        )
    });
    let free = list(&layout.free, |block: &Block| {
        format!(
            "record {{ page = {}; listed = {} }}",
            block.page,
            numbers(&block.listed)
        )
    });
    format!(
        "record {{ pages = {}; span_size = {}; meta = {}; tables = {tables}; free = {free} }}",
        layout.pages,
        layout.span_size,
        table_text(&layout.meta)
    )
}

fn table_text(table: &Table) -> String {
    let (first, others) = table.spans.split_first().expect("a table has a span");
    let rest = list(others, |span| {
        let tower = match &span.tower {
            Some(tower) => format!("some ({})", tower_text(tower)),
            None => "none".to_owned(),
        };
        format!("record {{ span = {}; tower = {tower} }}", span_text(span))
    });
    format!(
        "record {{ root = {}; span_size = {}; first = {}; head = {}; rest = {rest} }}",
        table.root,
        table.span_size,
        span_text(first),
        tower_text(&table.head)
    )
}

fn span_text(span: &Span) -> String {
    let entries = list(&span.entries, |entry: &Entry| {
        format!(
            "record {{ key = {}; value = {} }}",
            row_text(&entry.key),
            row_text(&entry.value)
        )
    });
    format!(
        "record {{ page = {}; conts = {}; entries = {entries} }}",
        span.page,
        numbers(&span.continuations)
    )
}

fn tower_text(tower: &Tower) -> String {
    format!(
        "record {{ page = {}; max_height = {}; height = {} }}",
        tower.page, tower.max, tower.height
    )
}

/// Proofs of a list of statements, each by the same words.
fn each(count: usize, proof: &str) -> String {
    nested((0..count).map(|_| proof.to_owned()))
}

fn nested(proofs: impl DoubleEndedIterator<Item = String>) -> String {
    proofs
        .rev()
        .fold("tt".to_owned(), |rest, proof| format!("({proof}, {rest})"))
}

/// That every piece of the layout is borne by its pages.
fn bears_text(layout: &Layout) -> String {
    let superblock = "record { mark = refl; major = refl; minor = refl; file_length = refl; free = refl; mounted = omega arith; span_size = refl; page_size = refl }";
    let mut pieces = vec![superblock.to_owned()];
    for table in layout.all_tables() {
        pieces.extend(table_pieces(table));
    }
    for block in &layout.free {
        let listed = each(block.listed.len(), "refl");
        pieces.push(format!(
            "record {{ mark = refl; next = refl; count = refl; listed = {listed} }}"
        ));
        pieces.extend(block.listed.iter().map(|_| "refl".to_owned()));
    }
    nested(pieces.into_iter())
}

fn table_pieces(table: &Table) -> Vec<String> {
    let skip_list = "record { mark = refl; first = refl; level = refl; size = refl; spans = refl; levels = refl; span_size = refl }";
    let mut pieces = vec![skip_list.to_owned()];
    for span in &table.spans {
        let conts = span
            .continuations
            .iter()
            .fold("tt".to_owned(), |rest, _| format!("(refl, refl, {rest})"));
        let entries = span.entries.iter().fold("tt".to_owned(), |rest, _| {
            format!("(refl, refl, refl, refl, {rest})")
        });
        pieces.push(format!(
            "record {{ mark = refl; cont = refl; prev = refl; next = refl; max_keys = refl; size = refl; conts = {conts}; entries = {entries} }}"
        ));
    }
    for tower in std::iter::once(&table.head).chain(table.towers()) {
        let nexts = each(tower.height.into(), "refl");
        pieces.push(format!("record {{ mark = refl; max_height = refl; height = refl; span_page = refl; nexts = {nexts} }}"));
    }
    pieces
}

/// That the table keeps its rules.
fn rules_text(table: &Table) -> String {
    let keys = table.keys();
    let rising = (0..keys).fold("tt".to_owned(), |rest, above| {
        format!("({}, {rest})", each(above, "tt"))
    });
    let some = |count: usize| if count == 0 { "tt" } else { "omega arith" };
    format!(
        "record {{ span_size = omega arith; sizes = omega arith; filled = {}; reach = {}; keys = {}; values = {}; rising = {rising}; heights = omega arith; others = {} }}",
        some(table.spans.len() - 1),
        each(table.spans.len(), "refl"),
        each(keys, "tt"),
        some(keys),
        some(table.towers().count())
    )
}
