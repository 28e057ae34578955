//! The faults of an import, by name and by what they are of.

/// A wrong import.
#[derive(Debug, Clone, Copy, PartialEq, Eq)]
pub enum Misimport {
    /// None: it is as it should be.
    Sound,

    /// An rp may stand before the rt alone.
    RpBeforeOnly,
    /// An rp may stand after the rt alone.
    RpAfterOnly,
    /// An rp may not be empty.
    EmptyRpRefused,
    /// White space may stand after the base.
    SpaceAfterBase,
    /// White space may stand after the rt.
    SpaceAfterRt,
    /// Other text may stand after the rt.
    TextAfterRt,
    /// The base may be empty.
    EmptyBase,
    /// The rt may be empty.
    EmptyRt,
    /// A ruby element may have no rt.
    NoRt,
    /// A second rt may follow the first.
    TwoRts,
    /// The end tag of rt may be left out before that of ruby.
    EndTagLeftOut,
    /// A ruby element may stand in the base of another.
    Nested,
    /// An element may be open at the text's end.
    OpenAtEnd,
    /// An element that is open at the text's end is the fault, where it starts.
    OpenNamesStart,

    /// Tags may have upper case.
    UpperCase,
    /// Tags may have attributes and white space before their end.
    Attributes,
    /// A `<` that starts no tag may stand in rt.
    LoneBracket,
    /// A `>` may stand in rt.
    LoneEnd,
    /// An ampersand may stand outside ruby elements, as a list has it.
    Ampersand,
    /// A bad tag is at fault one byte late.
    TagOneLate,
    /// A tag cut short at the text's end is at fault there.
    TagCutAtEnd,

    /// Surrogates are well-formed.
    Surrogates,
    /// Sequences longer than they need be are well-formed.
    Overlong,
    /// Code points past U+10FFFF are well-formed.
    PastLast,
    /// An ill-formed sequence is at fault at the first byte that is not as it should be.
    IllFormedOneLate,
    /// A sequence cut short at the text's end is at fault there.
    CutAtEnd,
    /// A byte order mark is skipped.
    MarkSkipped,

    /// A character of no list is left out.
    UnlistedLeftOut,
    /// A character of no list is refused in rt too.
    UnlistedInRt,
    /// A character's class is the lowest-numbered list's, before 27 too.
    LowestFirst,
    /// Class 27 is as wide as its size.
    WesternWhole,
    /// Class 3 is as wide as its size.
    HyphenWhole,
    /// Class 7 is as wide as its size.
    CommaWhole,
    /// All groups have number 1.
    OneGroup,
    /// Groups are numbered from 0.
    FromZero,
    /// A group's number is its first record's, counted from 1.
    NumberedByRecord,
    /// The ruby count is in bytes.
    RubyInBytes,
    /// The ruby count is in units of UTF-16.
    RubyInUtf16,
    /// White space in rt is not counted.
    RubyWithoutSpace,
    /// The text of rp is counted too.
    RubyWithRp,
    /// Of the ruby count only 8 bits are kept.
    ShortRubyCount,
    /// Records past the 256th are left out.
    CutAt256,
    /// A size that is no multiple of 8 is made one.
    SizeRounded,

    /// 1, 2 and 3 come before 17.
    AfterCaller,
    /// 4 comes before 17.
    AfterStored,
    /// 7 comes before 17.
    AfterCount,
    /// The slot is emptied where the text has a fault.
    FaultEmpties,
    /// 17 reports the lines that there are.
    FaultReports,
    /// The fault's place is in characters.
    PlaceInCharacters,
    /// The fault's place is the text's length.
    PlaceIsLength,
    /// Of the fault's place only 16 bits are kept.
    ShortPlace,
    /// Nothing is deleted.
    DeletesNothing,
    /// The records are added at the end.
    Appends,
    /// As many records are deleted as there are lines.
    DeletesLines,
    /// An accepted import reports no lines.
    ReportsNone,
}

/// Of ruby elements: which are let in, and where an open one is at fault.
pub const IN_ELEMENTS: [Misimport; 14] = [
    Misimport::RpBeforeOnly,
    Misimport::RpAfterOnly,
    Misimport::EmptyRpRefused,
    Misimport::SpaceAfterBase,
    Misimport::SpaceAfterRt,
    Misimport::TextAfterRt,
    Misimport::EmptyBase,
    Misimport::EmptyRt,
    Misimport::NoRt,
    Misimport::TwoRts,
    Misimport::EndTagLeftOut,
    Misimport::Nested,
    Misimport::OpenAtEnd,
    Misimport::OpenNamesStart,
];

/// Of tags, and of `<`, `>` and `&` where they are of none.
pub const IN_TAGS: [Misimport; 7] = [
    Misimport::UpperCase,
    Misimport::Attributes,
    Misimport::LoneBracket,
    Misimport::LoneEnd,
    Misimport::Ampersand,
    Misimport::TagOneLate,
    Misimport::TagCutAtEnd,
];

/// Of bytes that are no UTF-8, or that need not be there.
pub const IN_BYTES: [Misimport; 6] = [
    Misimport::Surrogates,
    Misimport::Overlong,
    Misimport::PastLast,
    Misimport::IllFormedOneLate,
    Misimport::CutAtEnd,
    Misimport::MarkSkipped,
];

/// Of the records that are made of a text.
pub const IN_RECORDS: [Misimport; 16] = [
    Misimport::UnlistedLeftOut,
    Misimport::UnlistedInRt,
    Misimport::LowestFirst,
    Misimport::WesternWhole,
    Misimport::HyphenWhole,
    Misimport::CommaWhole,
    Misimport::OneGroup,
    Misimport::FromZero,
    Misimport::NumberedByRecord,
    Misimport::RubyInBytes,
    Misimport::RubyInUtf16,
    Misimport::RubyWithoutSpace,
    Misimport::RubyWithRp,
    Misimport::ShortRubyCount,
    Misimport::CutAt256,
    Misimport::SizeRounded,
];

/// Of a text that is read rightly, and then answered or put in wrongly.
pub const IMPORTED_WRONGLY: [Misimport; 11] = [
    Misimport::AfterCaller,
    Misimport::AfterStored,
    Misimport::AfterCount,
    Misimport::FaultEmpties,
    Misimport::FaultReports,
    Misimport::PlaceInCharacters,
    Misimport::PlaceIsLength,
    Misimport::DeletesNothing,
    Misimport::Appends,
    Misimport::DeletesLines,
    Misimport::ReportsNone,
];

/// Of the place of a fault that is found rightly, where the text before it is long.
pub const IN_LONG_TEXTS: [Misimport; 1] = [Misimport::ShortPlace];

/// All of them.
pub const MISIMPORTS: [&[Misimport]; 6] =
    [&IN_ELEMENTS, &IN_TAGS, &IN_BYTES, &IN_RECORDS, &IMPORTED_WRONGLY, &IN_LONG_TEXTS];
