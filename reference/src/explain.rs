//! An image in readable lines.

use crate::check::check;
use crate::layout::{Block, Layout, Table, Tower};
use crate::page;
use crate::rule::Broken;
use crate::sort::{number, Sort};

/// The layout, or every broken rule with its page.
pub fn explain(image: &[u8]) -> String {
    match check(image) {
        Ok(layout) => explain_layout(&layout),
        Err(broken) => broken
            .iter()
            .map(|one| explain_broken(image, one))
            .collect(),
    }
}

/// A broken rule, the page where it was seen, and the kind that the page's first bytes say.
fn explain_broken(image: &[u8], broken: &Broken) -> String {
    let kind = match broken.page {
        0 => None,
        number => page::kind_of(image, number),
    };
    let marked = kind.map_or("no mark".to_owned(), |kind| kind.to_string());
    let (number, rule) = (broken.page, broken.rule);
    format!("page {number} ({marked}): {rule}, {}\n", rule.says())
}

fn explain_layout(layout: &Layout) -> String {
    let kept = if layout.count_kept { "" } else { "not " };
    let mut text = format!(
        "pages {}, mounted {}, span size {}, {} pages free, their count {kept}kept\n",
        layout.pages,
        layout.mounted,
        layout.span_size,
        layout.free_pages()
    );
    text.push_str("metaindex\n");
    text.push_str(&explain_table(Sort::Bytes, &layout.meta));
    for (name, table) in &layout.tables {
        text.push_str(&format!("table {}\n", shown(name)));
        text.push_str(&explain_table(Sort::of(name), table));
    }
    text.push_str(&explain_free(&layout.free));
    text
}

fn explain_table(sort: Sort, table: &Table) -> String {
    let mut text = format!(
        "  skip list {}, span size {}, keys {}, head {}\n",
        table.root,
        table.span_size,
        table.keys(),
        explain_tower(&table.head)
    );
    for span in &table.spans {
        text.push_str(&format!("  span {}", span.page));
        if !span.continuations.is_empty() {
            text.push_str(&format!(", continuations {:?}", span.continuations));
        }
        if let Some(tower) = &span.tower {
            text.push_str(&format!(", tower {}", explain_tower(tower)));
        }
        text.push('\n');
        for entry in &span.entries {
            let (key, value) = (shown_key(sort, &entry.key), shown(&entry.value));
            text.push_str(&format!("    {key}: {value}\n"));
        }
    }
    text
}

fn explain_tower(tower: &Tower) -> String {
    format!("{} (height {} of {})", tower.page, tower.height, tower.max)
}

fn explain_free(blocks: &[Block]) -> String {
    let line = |block: &Block| format!("free-list block {} lists {:?}\n", block.page, block.listed);
    blocks.iter().map(line).collect()
}

/// The number in an offset table, or the key as other bytes are shown.
fn shown_key(sort: Sort, key: &[u8]) -> String {
    let number = number(key).filter(|_| sort == Sort::Numbers);
    number.map_or_else(|| shown(key), |number| number.to_string())
}

/// The first bytes, printable ones as they are, and the length where they are many.
fn shown(bytes: &[u8]) -> String {
    const MOST: usize = 24;
    let part = &bytes[..bytes.len().min(MOST)];
    let text = part.escape_ascii();
    if bytes.len() > MOST {
        format!("\"{text}\".. ({} bytes)", bytes.len())
    } else {
        format!("\"{text}\"")
    }
}
