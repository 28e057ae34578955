//! The faults, by name and by what they are of.

use super::imports::Misimport;
use super::in_use::Misuse;
use super::lists::Mislisting;
use super::redone::Misreading;
use super::rows::Misrow;

/// A wrong program.
#[derive(Debug, Clone, Copy, PartialEq, Eq)]
pub enum Fault {
    /// A comma's space never shrinks, so that lines break where their natural width overflows.
    NaturalBreaks,
    /// The slot is looked at before the caller: a neighbour's damage shows as 4 in place of 3.
    DamageBeforeCaller,
    /// Rounding leftovers go to a line's last gap.
    LeftoverToLastGap,
    /// Old line words stay past the new line count.
    OldLines,
    /// Old places stay past the new record count.
    OldPlaces,
    /// Old records stay past the new record count.
    OldRecords,
    /// The two zeros of the head are not written.
    OldZeros,
    /// An edit composes, but says the old line count.
    OldLineCount,
    /// An accepted edit changes a word of the next slot.
    NextSlot,
    /// An edit refused with 10 has already written the head.
    RefusalWrites,
    /// Everything is refused.
    RefuseAll,
    /// Caller 0 may edit an unassigned slot.
    CallerZero,
    /// Only the low 16 bits of a caller are looked at.
    ShortCaller,
    /// A slot number past the end starts again from the first slot.
    SlotWraps,
    /// Words past the last whole slot are overlooked.
    LooseLength,
    /// The end of the deletion is reckoned in 32 bits.
    DeletionWraps,
    /// Answer 5 names the place in place of the count.
    FiveNamesPlace,
    /// Too many records are seen before words that are no whole record.
    SevenBeforeSix,
    /// Sizes up to 4,096 are let in.
    LargeSizes,
    /// Group faults are seen before records that break their own rules.
    NineBeforeEight,
    /// Answer 8 names the record among the inserted ones.
    EightNamesInserted,
    /// Answer 9 names the group's first record.
    NineNamesGroup,
    /// Answer 10 names the paragraph's first record.
    TenNamesFirst,
    /// Stored records are not judged.
    StoredUnjudged,
    /// The indent moves line 0, but takes no room on it.
    IndentForgotten,
    /// The final line is flush where it ends at the measure.
    FinalFlush,
    /// The 256th record is not placed.
    LastRecord,
    /// The 256th line is not written.
    LastLine,
    /// Set-up leaves the text of a slot whose clinic, measure and indent stay.
    SetUpKeepsText,
    /// Set-up writes the head and leaves every word after it.
    SetUpHeadOnly,
    /// Set-up lets clinics over 16 bits in.
    SetUpAnyClinic,
    /// Set-up names the last slot out of limits.
    SetUpNamesLast,
    /// Read hands back all line words, used or not.
    ReadAll,
    /// Read hands back its part although it is refused.
    ReadRefusedPart,
    /// Read does not judge the line count.
    ReadAnyCount,
    /// Read judges the slot's measure too.
    ReadJudges,
    /// A group is as wide as its base, or as a single ruby character.
    NarrowRuby,
    /// Two dashes hold together whatever their code points.
    DashesAlike,
    /// A digit does not hold the postfix after it.
    DigitParted,
    /// Of the digits, 9 does not hold it.
    NineParted,
    /// Every character of class 27 holds it.
    LetterHeld,
    /// Every numeric character of class 27 holds it, as ² and ①.
    NumericHeld,
    /// Ruby place takes an index equal to the count.
    RubyOneMore,
    /// One class is set as if it were another of the same advance.
    ClassAs(u32, u32),
    /// The space between two classes of unlike size is one too wide.
    PairShifted(u32, u32),
    /// The space between two classes is taken from the other side's size.
    OtherSide(u32, u32),
    /// The space between two classes shrinks in the next stage: in 1 and not in none, in 2 and not in 1, in none and
    /// not in 2.
    NextStage(u32, u32),
    /// The table's columns are taken for its rows, while the sizes stay on their sides.
    TableByColumns,
    /// Where rules a and b add two spaces, only the left side's is set.
    OneSpaceOfTwo,
    /// A line's gaps are added up in one word, whose fields have so many bits: least widths, shrink stages 1 and 2,
    /// weights. What a field cannot hold is carried into the next.
    Fields([u32; 4]),
    /// The rows of groups stand wrongly.
    Rows(Misrow),
    /// An edit misreports how many lines it composed anew.
    Redone(Misreading),
    /// The published lists are wrong, or are asked wrongly.
    Listed(Mislisting),
    /// A text is misread, or imported wrongly.
    Imported(Misimport),
    /// A slot is taken or given back wrongly, or whether it is in use is judged wrongly.
    Used(Misuse),
}

/// Every fault but those of digits, classes, gaps, rows, redone lines, lists, imports and slots in use.
pub const SINGLE: [Fault; 39] = [
    Fault::NaturalBreaks,
    Fault::DamageBeforeCaller,
    Fault::LeftoverToLastGap,
    Fault::OldLines,
    Fault::OldPlaces,
    Fault::OldRecords,
    Fault::OldZeros,
    Fault::OldLineCount,
    Fault::NextSlot,
    Fault::RefusalWrites,
    Fault::RefuseAll,
    Fault::CallerZero,
    Fault::ShortCaller,
    Fault::SlotWraps,
    Fault::LooseLength,
    Fault::DeletionWraps,
    Fault::FiveNamesPlace,
    Fault::SevenBeforeSix,
    Fault::LargeSizes,
    Fault::NineBeforeEight,
    Fault::EightNamesInserted,
    Fault::NineNamesGroup,
    Fault::TenNamesFirst,
    Fault::StoredUnjudged,
    Fault::IndentForgotten,
    Fault::FinalFlush,
    Fault::LastRecord,
    Fault::LastLine,
    Fault::SetUpKeepsText,
    Fault::SetUpHeadOnly,
    Fault::SetUpAnyClinic,
    Fault::SetUpNamesLast,
    Fault::ReadAll,
    Fault::ReadRefusedPart,
    Fault::ReadAnyCount,
    Fault::ReadJudges,
    Fault::NarrowRuby,
    Fault::DashesAlike,
    Fault::RubyOneMore,
];

/// What holds the postfix after it (document 02, request 01).
pub const DIGITS: [Fault; 4] = [Fault::DigitParted, Fault::NineParted, Fault::LetterHeld, Fault::NumericHeld];

/// A class set as another: each of these changes some rule.
pub const CLASSES_AS: [Fault; 20] = [
    Fault::ClassAs(1, 2),
    Fault::ClassAs(2, 6),
    Fault::ClassAs(2, 7),
    Fault::ClassAs(5, 6),
    Fault::ClassAs(6, 7),
    Fault::ClassAs(7, 6),
    Fault::ClassAs(4, 9),
    Fault::ClassAs(4, 13),
    Fault::ClassAs(8, 13),
    Fault::ClassAs(13, 8),
    Fault::ClassAs(9, 4),
    Fault::ClassAs(10, 19),
    Fault::ClassAs(11, 15),
    Fault::ClassAs(12, 13),
    Fault::ClassAs(13, 12),
    Fault::ClassAs(13, 14),
    Fault::ClassAs(14, 13),
    Fault::ClassAs(15, 11),
    Fault::ClassAs(16, 13),
    Fault::ClassAs(19, 14),
];

/// Spaces from a wrong table (document 02, request 02), beside those wrong in one of its cells.
pub const TABLES: [Fault; 2] = [Fault::TableByColumns, Fault::OneSpaceOfTwo];

/// Fields that hold the sums of any 255 gaps: then `Fault::Fields` is no fault.
pub const FIELDS: [u32; 4] = [20, 18, 18, 8];

/// In each of these one field is too narrow for what a line can add up to: 499,000 in least widths, 170,000 and
/// 127,500 in shrink stages 1 and 2, 254 weights where it is stretched.
pub const NARROW_FIELDS: [Fault; 4] = [
    Fault::Fields([18, 18, 18, 8]),
    Fault::Fields([20, 17, 18, 8]),
    Fault::Fields([20, 18, 16, 8]),
    Fault::Fields([20, 18, 18, 7]),
];
