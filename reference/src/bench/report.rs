//! What was measured, as tables in Markdown.

use super::timer::Times;

/// What was measured of a case.
pub struct Row {
    pub call: &'static str,
    pub image: String,
    pub pages: usize,
    pub number: u32,
    pub memory: Times,
    pub twin: Times,
    /// The twin that compares keys byte by byte.
    pub byte_loop: Option<Times>,
    pub library: Option<Times>,
}

/// The columns that rows begin with.
const COLUMNS: [&str; 6] = ["call", "image", "pages", "answer", "memory µs", "twin µs"];

/// What a row has in these columns.
fn cells(row: &Row) -> Vec<String> {
    vec![
        row.call.to_owned(),
        row.image.clone(),
        row.pages.to_string(),
        row.number.to_string(),
        least(&row.memory),
        least(&row.twin),
    ]
}

/// A line for each row.
pub fn rows_table(rows: &[Row]) -> String {
    let more = [
        "median",
        "twin/memory",
        "library µs",
        "median",
        "library/twin",
    ];
    let line = |row: &Row| {
        let library = |show: fn(&Times) -> String| row.library.as_ref().map_or(none(), show);
        let mut line = cells(row);
        line.extend([
            median(&row.twin),
            ratio(&row.twin, &row.memory),
            library(least),
            library(median),
            library_beside(row, Some(row.twin)),
        ]);
        line
    };
    let header = [&COLUMNS[..], &more].concat();
    markdown(&header, rows.iter().map(line).collect(), 2)
}

/// A line for each row with serial numbers as keys.
pub fn serials_table(rows: &[Row]) -> String {
    let more = [
        "byte loop µs",
        "library µs",
        "library/twin",
        "library/byte loop",
    ];
    let line = |row: &Row| {
        let shown = |times: Option<Times>| times.as_ref().map_or(none(), least);
        let mut line = cells(row);
        line.extend([
            shown(row.byte_loop),
            shown(row.library),
            library_beside(row, Some(row.twin)),
            library_beside(row, row.byte_loop),
        ]);
        line
    };
    let header = [&COLUMNS[..], &more].concat();
    markdown(&header, rows.iter().map(line).collect(), 2)
}

/// The ratio of the library's time to another one.
fn library_beside(row: &Row, other: Option<Times>) -> String {
    let both = row.library.zip(other);
    both.map_or(none(), |(library, other)| ratio(&library, &other))
}

/// The time per page at 256 and 4,096 pages, for the images that come in both sizes.
pub fn per_page_table(rows: &[Row]) -> String {
    let header = [
        "image",
        "memory ns, 256 pages",
        "4096 pages",
        "twin ns, 256 pages",
        "4096 pages",
        "library ns, 256 pages",
        "4096 pages",
    ];
    let mut lines = Vec::new();
    for small in rows.iter().filter(|row| row.pages == 256) {
        let large = rows
            .iter()
            .find(|row| row.pages == 4096 && row.image == small.image);
        let Some(large) = large else { continue };
        lines.push(vec![
            small.image.clone(),
            per_page(Some(small.memory), 256),
            per_page(Some(large.memory), 4096),
            per_page(Some(small.twin), 256),
            per_page(Some(large.twin), 4096),
            per_page(small.library, 256),
            per_page(large.library, 4096),
        ]);
    }
    markdown(&header, lines, 1)
}

fn none() -> String {
    "-".to_owned()
}

fn least(times: &Times) -> String {
    format!("{:.2}", times.least.as_nanos() as f64 / 1000.0)
}

fn median(times: &Times) -> String {
    format!("{:.2}", times.median.as_nanos() as f64 / 1000.0)
}

/// The ratio of the least times.
fn ratio(one: &Times, other: &Times) -> String {
    let (one, other) = (one.least.as_nanos(), other.least.as_nanos());
    format!("{:.2}", one as f64 / other.max(1) as f64)
}

fn per_page(times: Option<Times>, pages: usize) -> String {
    times.map_or(none(), |times| {
        format!("{:.1}", times.least.as_nanos() as f64 / pages as f64)
    })
}

/// An aligned table; the columns from `numbers` on hold numbers.
fn markdown(header: &[&str], lines: Vec<Vec<String>>, numbers: usize) -> String {
    let header: Vec<String> = header.iter().map(|name| (*name).to_owned()).collect();
    let width = |column: usize| {
        let cells = lines.iter().chain([&header]).map(|line| &line[column]);
        cells.map(|cell| cell.chars().count()).max().unwrap_or(0)
    };
    let widths: Vec<usize> = (0..header.len()).map(width).collect();
    let rule = |(column, &width): (usize, &usize)| match column < numbers {
        true => "-".repeat(width),
        false => "-".repeat(width - 1) + ":",
    };
    let rules: Vec<String> = widths.iter().enumerate().map(rule).collect();
    let show = |line: &Vec<String>| {
        let cell = |(column, cell): (usize, &String)| match column < numbers {
            true => format!(" {cell:<0$} ", widths[column]),
            false => format!(" {cell:>0$} ", widths[column]),
        };
        let cells: Vec<String> = line.iter().enumerate().map(cell).collect();
        format!("|{}|\n", cells.join("|"))
    };
    let mut text = show(&header) + &show(&rules);
    for line in &lines {
        text.push_str(&show(line));
    }
    text
}
