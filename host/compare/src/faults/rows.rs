//! The two rows of a group set wrongly (document 02, request 06): in ruby place, and in the places of grouped records.

use second::RubyPlace;

use crate::layout::{LINES, PLACES, RECORDS};
use crate::program::{Program, Second};
use crate::rows::{set_base_rows, Row};

/// A wrong rule, or one that is asked wrongly.
#[derive(Debug, Clone, Copy, PartialEq, Eq)]
pub enum Misrow {
    /// None: the rows stand as they should, by the formula as it is written.
    Sound,
    /// What does not come out even is rounded up.
    RoundedUp,
    /// It is rounded to the nearest.
    Nearest,
    /// A single item is rounded up.
    SingleUp,
    /// All inner gaps get the same, and the first ones what is left over.
    LeftoverFirst,
    /// The last gap gets all of it.
    LeftoverLast,
    /// n stands in place of n - 1, so that the last gap opens behind the row.
    ByCount,
    /// The outer gaps open too, as document 01 has it.
    OuterGaps,
    /// The longer row is opened by the difference too.
    LongerToo,
    /// A single item stands at 0.
    SingleFirst,
    /// The base row stands as document 01 has it.
    OldBase,
    /// The row of ruby stands as document 01 has it.
    OldRuby,
    /// An edit that changes no record leaves the places as they are stored.
    StoredPlaces,
}

/// Those that show in the base row and in the row of ruby.
pub const IN_BOTH_ROWS: [Misrow; 8] = [
    Misrow::RoundedUp,
    Misrow::Nearest,
    Misrow::LeftoverFirst,
    Misrow::LeftoverLast,
    Misrow::ByCount,
    Misrow::OuterGaps,
    Misrow::LongerToo,
    Misrow::SingleFirst,
];

/// Those that show in ruby place alone. On the sheet the difference of two rows is a multiple of 4, so that a single
/// item comes out even.
pub const IN_RUBY: [Misrow; 2] = [Misrow::OldRuby, Misrow::SingleUp];

impl Misrow {
    /// Ruby place, whose numbers are in limits.
    pub fn ruby_place(self, base_advance: u32, ruby_count: u32, size: u32, k: u32) -> RubyPlace {
        let row = Row { n: ruby_count, width: ruby_count * size / 2, other: base_advance };
        let rule = match self {
            Misrow::OldRuby => Misrow::OuterGaps,
            Misrow::OldBase => Misrow::Sound,
            _ => self,
        };
        RubyPlace {
            offset: k * size / 2 + rule.moved(row, k),
            ..Second.ruby_place(base_advance, ruby_count, size, k)
        }
    }

    /// Spoils the words of a slot that an edit has just composed.
    pub fn spoil_slot(self, slot: &mut [u32], old: &[u32]) {
        let rule = match self {
            Misrow::OldBase => Misrow::OuterGaps,
            Misrow::OldRuby => Misrow::Sound,
            Misrow::StoredPlaces if slot[RECORDS..PLACES] == old[RECORDS..PLACES] => {
                slot[PLACES..LINES].copy_from_slice(&old[PLACES..LINES]);
                return;
            }
            _ => self,
        };
        set_base_rows(slot, |row, k| rule.moved(row, k));
    }

    /// How far item k of a row is moved from its solid offset.
    fn moved(self, row: Row, k: u32) -> u32 {
        let d = if self == Misrow::LongerToo { row.other.abs_diff(row.width) } else { row.shortfall() };
        let gaps = row.n.saturating_sub(1);
        match self {
            Misrow::OuterGaps => row.moved_by_document_01(k),
            Misrow::SingleFirst if gaps == 0 => 0,
            Misrow::RoundedUp | Misrow::SingleUp if gaps == 0 => d.div_ceil(2),
            _ if gaps == 0 => d / 2,
            Misrow::RoundedUp => (d * k).div_ceil(gaps),
            Misrow::Nearest => (2 * d * k + gaps) / (2 * gaps),
            Misrow::LeftoverFirst => d / gaps * k + k.min(d % gaps),
            Misrow::LeftoverLast => d / gaps * k + if k == gaps { d % gaps } else { 0 },
            Misrow::ByCount => d * k / row.n,
            _ => d * k / gaps,
        }
    }
}
