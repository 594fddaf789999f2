//! The rules of "Well-formed", one name for each.

use std::fmt;

/// Makes the enum `Rule`, the list of all rules, and what each says.
macro_rules! rules {
    ($($name:ident: $says:expr;)*) => {
        /// A rule of document 01, or of T-05 or T-06 of document 02, that an image can break.
        #[derive(Clone, Copy, Debug, PartialEq, Eq, PartialOrd, Ord, Hash)]
        pub enum Rule {
            $(#[doc = $says] $name,)*
        }

        impl Rule {
            /// All rules.
            pub const ALL: &'static [Rule] = &[$(Rule::$name,)*];

            /// What the rule says.
            pub fn says(self) -> &'static str {
                match self {
                    $(Rule::$name => $says,)*
                }
            }
        }
    };
}

rules! {
    ImageLength: "the image has 1024·P bytes, 4 ≤ P ≤ 4096";

    SuperblockMark: "page 1 bears the superblock's mark";
    Major: "major is 1";
    Minor: "minor is 2";
    FileLength: "file length is 1024·P";
    FirstBlockRange: "the first free-list page is 1 to P or 0";
    Mounted: "mounted is 0 or 1";
    SuperblockSpanSize: "the superblock's span size is 2 to 128";
    PageSize: "page size is 1024";

    SkipListMark: "a skip-list page bears its mark";
    FirstSpanRange: "the first span is 1 to P";
    FirstLevelRange: "the first level page is 1 to P";
    TableSpanSize: "the table's span size is 2 to 128";
    KeyCount: "size on the skip-list page is the true number of keys";
    SpanCount: "spans on the skip-list page is the true number of spans";
    LevelCount: "levels on the skip-list page is the true number of towers, first tower counted";

    SpanMark: "a span bears its mark";
    NextSpanRange: "a span's next is 1 to P or 0";
    SpanEnd: "the chain of spans ends in 0";
    PreviousLink: "a span's previous is the span before, 0 on the first";
    MaxKeys: "a span's max keys equals the table's span size";
    SizeOverMaxKeys: "a span's size is at most its max keys";
    EmptySpan: "only the first span may be empty";

    ContinuationMark: "a continuation page bears its mark";
    ContinuationRange: "a continuation link is 1 to P or 0";
    ContinuationEnd: "a span's chain of continuation pages ends in 0";
    TooFewContinuations: "a span has as many continuation pages as its entries reach, not fewer";
    TooManyContinuations: "a span has as many continuation pages as its entries reach, not more";

    KeyEmpty: "a key is not empty";
    KeysRising: "keys increase strictly through the whole table";
    OffsetLength: "a key of an offset table has exactly four bytes";
    OffsetsRising: "keys of an offset table increase strictly as numbers";

    NameLength: "a table name has 1 to 255 bytes";
    NameByte: "a table name has bytes of 21 to 7e hex";
    TableValue: "a value in the metaindex is four bytes";
    TableRange: "a value in the metaindex is a page, 1 to P";

    TowerMark: "a tower bears its mark";
    HeadSpan: "the head's span is the first span";
    HeadMax: "the head's max height is 1 to 252";
    HeadCurrent: "the head's current height is at most its max height";
    TowerEntryRange: "a tower entry is 1 to P or 0";
    TowerMax: "a tower's max height is 1 to 252";
    TowerCurrentOverMax: "a tower's current height is at most its max height";
    TowerCurrentZero: "a tower's current height is at least 1";
    TowerCurrentOverHead: "a tower's current height is at most the head's current height";
    TowerSpanRange: "a tower's span is 1 to P";
    TowerSpanForeign: "a tower's span is a span of the same table";
    TowerSpanFirst: "a tower's span is not the first span";
    TowerSpanShared: "a tower has a span of its own";
    LevelVisits: "the chain at a level visits exactly the other towers with current above it";
    LevelOrder: "the chain at a level visits the towers in span order";
    LevelEnd: "the chain at a level ends in 0";

    BlockMark: "a free-list block bears its mark";
    NextBlockRange: "a block's next is 1 to P or 0";
    BlockEnd: "the chain of free-list blocks ends in 0";
    BlockCount: "a block's count is 0 to 252";
    ListedRange: "a listed page is 1 to P";
    FreeMark: "a listed free page bears the free mark";
    KeptCount: "the kept free count is 0, for not kept, or the number of free pages plus 1";

    OwnedTwice: "no page is owned twice";
    NotOwned: "every page is owned";
}

impl fmt::Display for Rule {
    fn fmt(&self, f: &mut fmt::Formatter<'_>) -> fmt::Result {
        write!(f, "{self:?}")
    }
}

/// A rule that is broken, and the page where it was seen.
#[derive(Clone, Copy, Debug, PartialEq, Eq, PartialOrd, Ord)]
pub struct Broken {
    pub rule: Rule,
    pub page: u32,
}

impl fmt::Display for Broken {
    fn fmt(&self, f: &mut fmt::Formatter<'_>) -> fmt::Result {
        write!(
            f,
            "page {}: {} ({})",
            self.page,
            self.rule,
            self.rule.says()
        )
    }
}
