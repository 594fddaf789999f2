//! Pages: where they begin, the numbers on them, and the marks of the seven kinds.

use std::fmt;

/// The length of a page in bytes.
pub const PAGE: usize = 1024;
/// The fewest pages an image has.
pub const MIN_PAGES: usize = 4;
/// The most pages an image has.
pub const MAX_PAGES: usize = 4096;
/// The superblock is page 1.
pub const SUPERBLOCK: u32 = 1;
/// "Page 2 is the metaindex's skip-list page."
pub const METAINDEX: u32 = 2;
/// The most numbers a free-list block lists, and the greatest height of a tower.
pub const MAX_NUMBERS: usize = 252;

/// Offsets of the fields on the superblock.
pub mod superblock {
    pub const MAJOR: usize = 6;
    pub const MINOR: usize = 7;
    pub const FILE_LENGTH: usize = 8;
    pub const FIRST_BLOCK: usize = 16;
    pub const MOUNTED: usize = 20;
    pub const SPAN_SIZE: usize = 22;
    pub const PAGE_SIZE: usize = 24;
    pub const KEPT_COUNT: usize = 28;
}

/// Offsets of the fields on a skip-list page.
pub mod skip_list {
    pub const FIRST_SPAN: usize = 8;
    pub const FIRST_LEVEL: usize = 12;
    pub const SIZE: usize = 16;
    pub const SPANS: usize = 20;
    pub const LEVELS: usize = 24;
    pub const SPAN_SIZE: usize = 28;
}

/// Offsets of the fields on a tower.
pub mod tower {
    pub const MAX_HEIGHT: usize = 8;
    pub const CURRENT: usize = 10;
    pub const SPAN: usize = 12;
    pub const NEXT: usize = 16;
}

/// Offsets of the fields on a span page.
pub mod span {
    pub const CONTINUATION: usize = 4;
    pub const PREVIOUS: usize = 8;
    pub const NEXT: usize = 12;
    pub const MAX_KEYS: usize = 16;
    pub const SIZE: usize = 18;
    pub const ENTRIES: usize = 20;
}

/// Offsets of the fields on a continuation page.
pub mod continuation {
    pub const NEXT: usize = 4;
    pub const DATA: usize = 8;
}

/// Offsets of the fields on a free-list block.
pub mod block {
    pub const NEXT: usize = 8;
    pub const COUNT: usize = 12;
    pub const LISTED: usize = 16;
}

/// The seven kinds of page.
#[derive(Clone, Copy, Debug, PartialEq, Eq, PartialOrd, Ord)]
pub enum Kind {
    Superblock,
    SkipList,
    Tower,
    Span,
    Continuation,
    Block,
    Free,
}

/// "The first bytes of a page say its kind": the marks, in the order of `Kind`.
pub const MARKS: [(Kind, &[u8]); 7] = [
    (Kind::Superblock, &[0x31, 0x41, 0xde, 0x49, 0x32, 0x50]),
    (
        Kind::SkipList,
        &[0x53, 0x6b, 0x69, 0x70, 0x4c, 0x69, 0x73, 0x74],
    ),
    (
        Kind::Tower,
        &[0x42, 0x53, 0x4c, 0x65, 0x76, 0x65, 0x6c, 0x73],
    ),
    (Kind::Span, &[0x53, 0x70, 0x61, 0x6e]),
    (Kind::Continuation, &[0x43, 0x4f, 0x4e, 0x54]),
    (
        Kind::Block,
        &[0x23, 0x66, 0x72, 0x4c, 0x69, 0x73, 0x74, 0x23],
    ),
    (
        Kind::Free,
        &[0x7e, 0x21, 0x46, 0x52, 0x45, 0x45, 0x21, 0x7e],
    ),
];

impl Kind {
    /// The mark of this kind.
    pub fn mark(self) -> &'static [u8] {
        MARKS[self as usize].1
    }
}

impl fmt::Display for Kind {
    fn fmt(&self, f: &mut fmt::Formatter<'_>) -> fmt::Result {
        f.write_str(match self {
            Kind::Superblock => "superblock",
            Kind::SkipList => "skip-list page",
            Kind::Tower => "tower",
            Kind::Span => "span",
            Kind::Continuation => "continuation",
            Kind::Block => "free-list block",
            Kind::Free => "listed free page",
        })
    }
}

/// "The image has 1024·P bytes, 4 ≤ P ≤ 4096": P, if the length is of this form.
pub fn pages_of(length: usize) -> Option<u32> {
    let pages = length / PAGE;
    let legal = length.is_multiple_of(PAGE) && (MIN_PAGES..=MAX_PAGES).contains(&pages);
    legal.then_some(pages as u32)
}

/// "Page n begins at byte 1024·(n−1)."
pub fn begin(page: u32) -> usize {
    PAGE * (page as usize - 1)
}

/// The bytes of a page.
pub fn bytes(image: &[u8], page: u32) -> &[u8] {
    &image[begin(page)..begin(page) + PAGE]
}

/// The bytes of a page, to be written.
pub fn bytes_mut(image: &mut [u8], page: u32) -> &mut [u8] {
    &mut image[begin(page)..begin(page) + PAGE]
}

/// Whether the page begins with the mark of this kind.
pub fn bears(image: &[u8], page: u32, kind: Kind) -> bool {
    bytes(image, page).starts_with(kind.mark())
}

/// The kind that the first bytes of a page say, if they are one of the seven marks.
pub fn kind_of(image: &[u8], page: u32) -> Option<Kind> {
    let found = MARKS
        .iter()
        .find(|(_, mark)| bytes(image, page).starts_with(mark));
    found.map(|(kind, _)| *kind)
}

/// The two-byte number at this offset of the page.
pub fn read_u16(image: &[u8], page: u32, offset: usize) -> u16 {
    let at = begin(page) + offset;
    u16::from_be_bytes([image[at], image[at + 1]])
}

/// The four-byte number at this offset of the page.
pub fn read_u32(image: &[u8], page: u32, offset: usize) -> u32 {
    let at = begin(page) + offset;
    u32::from_be_bytes([image[at], image[at + 1], image[at + 2], image[at + 3]])
}

/// Writes these bytes at this offset of the page.
pub fn write(image: &mut [u8], page: u32, offset: usize, data: &[u8]) {
    bytes_mut(image, page)[offset..offset + data.len()].copy_from_slice(data);
}

/// Writes a two-byte number at this offset of the page.
pub fn write_u16(image: &mut [u8], page: u32, offset: usize, number: u16) {
    write(image, page, offset, &number.to_be_bytes());
}

/// Writes a four-byte number at this offset of the page.
pub fn write_u32(image: &mut [u8], page: u32, offset: usize, number: u32) {
    write(image, page, offset, &number.to_be_bytes());
}

/// Writes the mark of this kind on the page.
pub fn write_mark(image: &mut [u8], page: u32, kind: Kind) {
    write(image, page, 0, kind.mark());
}

/// The offset of a tower's entry at this level, "lowest first".
pub fn tower_entry(level: usize) -> usize {
    tower::NEXT + 4 * level
}

/// The offset of a number listed in a free-list block.
pub fn listed_number(place: usize) -> usize {
    block::LISTED + 4 * place
}
