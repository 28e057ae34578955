//! Slots taken and given back wrongly, and the in-use word judged or kept wrongly (document 02, request 07).

use crate::layout::{IN_USE, LINES, PLACES, RECORDS, SLOT};

/// A wrong way to take slots, give them back, or tell whether they are in use.
#[derive(Debug, Clone, Copy, PartialEq, Eq)]
pub enum Misuse {
    /// None: all is as it should be.
    Sound,

    /// The highest free slot is taken.
    Highest,
    /// A free slot of any clinic is taken.
    AnyClinics,
    /// An unassigned slot is taken too.
    UnassignedToo,
    /// The clinic's first slot is taken, free or not.
    FirstOwn,
    /// Only the low 16 bits of a caller are looked at.
    ShortCaller,
    /// Every word but 1 is free.
    DamagedIsFree,
    /// A damaged word is free once no other is.
    DamagedLast,
    /// A slot whose measure is out of limits is passed over.
    PassesDamaged,
    /// A slot that holds records is passed over.
    PassesWritten,
    /// Where none is free, a free one of another clinic's lets the call pass.
    AnothersFreeCounts,
    /// One clinic's slots can be used up by another.
    UsedUpByAnother,
    /// 13 comes before 3.
    ThirteenFirst,
    /// Caller 0 takes unassigned slots.
    CallerZeroTakes,
    /// Words past the last whole slot are overlooked.
    LooseLength,
    /// 13 names how many slots there are.
    ThirteenNames,
    /// A taking refused with 13 mends a damaged word of the clinic's.
    ThirteenMends,
    /// Slots are numbered from 1.
    FromOne,
    /// A word of 2 is written.
    WritesTwo,
    /// No word is written.
    WritesNone,
    /// The slot taken is emptied.
    TakeEmpties,
    /// A word of the slot taken becomes 0.
    TakeClears(usize),
    /// The slot after the one taken becomes one in use.
    NextToo,

    /// 14 comes before 3.
    FourteenFirst,
    /// 14 comes after 4.
    FourteenAfterFour,
    /// 14 comes before 17.
    FourteenBeforeText,
    /// 14 names the slot.
    FourteenNames,
    /// An edit refused with 14 reports the lines that there are.
    FourteenReports,
    /// A slot that is not in use is open to this call.
    Unused(On),
    /// A word above 1 counts as 1 in this call.
    AboveOne(On),
    /// A word above 1 counts as 0 in all calls.
    AboveOneIsFree,

    /// A giving back leaves this word.
    Leaves(usize),
    /// It makes this word 0.
    Clears(usize),
    /// It leaves all words but the in-use word.
    LeavesAll,
    /// It leaves what stands past the counts.
    LeavesPastCounts,
    /// It does not ask for 4.
    Unjudged,
    /// It asks for a read's 4.
    JudgedAsRead,
    /// It is open to every clinic but 0.
    AnyGivesBack,
    /// It is open to caller 0 where the slot is unassigned.
    ZeroGivesBack,
    /// The slot after it becomes one that is not in use.
    FreesNextToo,
    /// It writes the in-use word where it is refused with 4.
    RefusalWrites,
    /// It names the slot.
    NamesSlot,
    /// It names how many lines there were.
    NamesLines,

    /// An accepted edit makes the word 0.
    EditClears,
    /// A refused edit makes the word of its caller's slot 0.
    RefusedEditClears,
    /// An accepted import makes the word 0, and an edit does not.
    ImportClears,
    /// An edit takes a slot that is not in use.
    EditTakes,
    /// Set-up leaves the words.
    SetUpLeaves,
    /// Set-up has every assigned slot in use.
    SetUpTakes,
}

/// A call that asks whether a slot is in use. What is wrong with an edit is wrong with an import too.
#[derive(Debug, Clone, Copy, PartialEq, Eq)]
pub enum On {
    /// Edit.
    Edit,
    /// Import.
    Import,
    /// Read with its companion.
    Read,
    /// Give back.
    GiveBack,
}

/// All of them, with words of every part of a slot.
pub const MISUSES: [Misuse; 73] = [
    Misuse::Highest,
    Misuse::AnyClinics,
    Misuse::UnassignedToo,
    Misuse::FirstOwn,
    Misuse::ShortCaller,
    Misuse::DamagedIsFree,
    Misuse::DamagedLast,
    Misuse::PassesDamaged,
    Misuse::PassesWritten,
    Misuse::AnothersFreeCounts,
    Misuse::UsedUpByAnother,
    Misuse::ThirteenFirst,
    Misuse::CallerZeroTakes,
    Misuse::LooseLength,
    Misuse::ThirteenNames,
    Misuse::ThirteenMends,
    Misuse::FromOne,
    Misuse::WritesTwo,
    Misuse::WritesNone,
    Misuse::TakeEmpties,
    Misuse::TakeClears(0),
    Misuse::TakeClears(1),
    Misuse::TakeClears(2),
    Misuse::TakeClears(3),
    Misuse::TakeClears(4),
    Misuse::TakeClears(7),
    Misuse::TakeClears(RECORDS),
    Misuse::TakeClears(SLOT - 1),
    Misuse::NextToo,
    Misuse::FourteenFirst,
    Misuse::FourteenAfterFour,
    Misuse::FourteenBeforeText,
    Misuse::FourteenNames,
    Misuse::FourteenReports,
    Misuse::Unused(On::Edit),
    Misuse::Unused(On::Import),
    Misuse::Unused(On::Read),
    Misuse::Unused(On::GiveBack),
    Misuse::AboveOne(On::Edit),
    Misuse::AboveOne(On::Import),
    Misuse::AboveOne(On::Read),
    Misuse::AboveOne(On::GiveBack),
    Misuse::AboveOneIsFree,
    Misuse::Leaves(3),
    Misuse::Leaves(4),
    Misuse::Leaves(IN_USE),
    Misuse::Leaves(6),
    Misuse::Leaves(7),
    Misuse::Leaves(RECORDS),
    Misuse::Leaves(PLACES - 1),
    Misuse::Leaves(PLACES),
    Misuse::Leaves(LINES - 1),
    Misuse::Leaves(LINES),
    Misuse::Leaves(SLOT - 1),
    Misuse::Clears(0),
    Misuse::Clears(1),
    Misuse::Clears(2),
    Misuse::LeavesAll,
    Misuse::LeavesPastCounts,
    Misuse::Unjudged,
    Misuse::JudgedAsRead,
    Misuse::AnyGivesBack,
    Misuse::ZeroGivesBack,
    Misuse::FreesNextToo,
    Misuse::RefusalWrites,
    Misuse::NamesSlot,
    Misuse::NamesLines,
    Misuse::EditClears,
    Misuse::RefusedEditClears,
    Misuse::ImportClears,
    Misuse::EditTakes,
    Misuse::SetUpLeaves,
    Misuse::SetUpTakes,
];
