//! Why a call is refused (document 01, "Refusal numbers, in the order they are checked", and document 02,
//! requests 04, 05 and 07).

use std::error::Error;
use std::fmt;

use crate::layout::{RECORD_WORDS, SLOT_WORDS};
use crate::leaflet::LeafletFault;
use crate::limits::{MAX_RECORDS, MAX_SLOTS};

/// The number of [`Refusal::Record`], and of [`Refusal::Ruby`].
pub(crate) const RECORD: u32 = 8;
/// The number of [`Refusal::Leaflet`].
pub(crate) const LEAFLET: u32 = 17;

/// A refusal, with its place where the table names one. A refused call changes no word.
///
/// ```
/// use gelumbrio::{Clinic, Refusal, Sheet, SlotNumber};
///
/// let refusal = Sheet::new(1)?.read(Clinic(7), SlotNumber(1)).unwrap_err();
/// assert_eq!((refusal, refusal.number()), (Refusal::Slot, 2));
/// assert_eq!(refusal.to_string(), "the sheet has no slot of that number");
/// # Ok::<(), Refusal>(())
/// ```
#[derive(Debug, Clone, Copy, PartialEq, Eq, Hash)]
#[non_exhaustive]
pub enum Refusal {
    /// 1: the sheet's length, or a set-up list's, is wrong.
    Length,
    /// 2: the sheet has no such slot.
    Slot,
    /// 3: the slot is not the caller's, or the caller of a taking is 0, who has none.
    Caller,
    /// 13: the clinic has no free slot to take. One that it gives back is free again.
    NoneFree,
    /// 14, which comes before 4: the slot is the caller's, but not in use. [`Sheet::take`](crate::Sheet::take) takes
    /// the lowest-numbered of these.
    NotInUse,
    /// 4: what the slot holds is damaged.
    ///
    /// An edit and a giving back find a measure or indent out of limits, more than [`MAX_RECORDS`] records,
    /// records that break a rule or are not in their classes' lists, or an in-use word above 1. Only a set-up mends
    /// these, and it empties every slot of the sheet. A read finds such an in-use word and more than
    /// [`MAX_LINES`](crate::limits::MAX_LINES) lines, and [`Sheet::lines`](crate::Sheet::lines) lines that do not
    /// share out the records. Any accepted edit mends bad lines, even an empty one: it composes the whole slot.
    Damaged,
    /// 5: the place or the deletion passes the end.
    PastEnd {
        /// How many records the slot has.
        count: u32,
    },
    /// 6: the inserted words are not whole records.
    PartialRecord,
    /// 7: more than [`MAX_RECORDS`] records would result.
    TooManyRecords,
    /// 8: a record breaks its own rules.
    Record {
        /// Its number after the edit.
        record: u32,
    },
    /// 8, of ruby place, which names no record.
    Ruby,
    /// 12, which comes before 9: a record's character is not in the published list of its class.
    ///
    /// [`in_list`](crate::in_list) tells whether it is, [`class_of`](crate::class_of) which class it may have.
    NotListed {
        /// Its number after the edit.
        record: u32,
    },
    /// 9: a record breaks a group rule.
    Group {
        /// Its number after the edit.
        record: u32,
    },
    /// 10: no breaking exists.
    NoBreaking {
        /// The first record of the run that is too wide; the first run stands after the indent.
        record: u32,
    },
    /// 11: a clinic, measure or indent is out of limits.
    Limits {
        /// The slot it was meant for.
        slot: u32,
    },
    /// 17, which comes before all others: the text of an import is no leaflet.
    ///
    /// It says where the first fault is and what stands there.
    Leaflet(LeafletFault),
    /// A number that this version of the crate does not know.
    Unknown {
        /// The number.
        number: u32,
        /// The place that came with it.
        place: u32,
    },
}

impl Refusal {
    /// The refusal of this number and place, which is none for number 0.
    pub(crate) fn new(number: u32, place: u32) -> Option<Refusal> {
        Some(match number {
            0 => return None,
            1 => Refusal::Length,
            2 => Refusal::Slot,
            3 => Refusal::Caller,
            4 => Refusal::Damaged,
            5 => Refusal::PastEnd { count: place },
            6 => Refusal::PartialRecord,
            7 => Refusal::TooManyRecords,
            RECORD => Refusal::Record { record: place },
            9 => Refusal::Group { record: place },
            10 => Refusal::NoBreaking { record: place },
            11 => Refusal::Limits { slot: place },
            12 => Refusal::NotListed { record: place },
            13 => Refusal::NoneFree,
            14 => Refusal::NotInUse,
            _ => Refusal::Unknown { number, place },
        })
    }

    /// The number in document 01's table, or in the request that adds it.
    ///
    /// ```
    /// use gelumbrio::Refusal;
    ///
    /// assert_eq!(Refusal::PastEnd { count: 12 }.number(), 5);
    /// assert_eq!(Refusal::NotInUse.number(), 14);
    /// ```
    pub fn number(self) -> u32 {
        match self {
            Refusal::Length => 1,
            Refusal::Slot => 2,
            Refusal::Caller => 3,
            Refusal::Damaged => 4,
            Refusal::PastEnd { .. } => 5,
            Refusal::PartialRecord => 6,
            Refusal::TooManyRecords => 7,
            Refusal::Record { .. } | Refusal::Ruby => RECORD,
            Refusal::Group { .. } => 9,
            Refusal::NoBreaking { .. } => 10,
            Refusal::Limits { .. } => 11,
            Refusal::NotListed { .. } => 12,
            Refusal::NoneFree => 13,
            Refusal::NotInUse => 14,
            Refusal::Leaflet(_) => LEAFLET,
            Refusal::Unknown { number, .. } => number,
        }
    }
}

impl fmt::Display for Refusal {
    fn fmt(&self, f: &mut fmt::Formatter<'_>) -> fmt::Result {
        match self {
            Refusal::Length => write!(
                f,
                "the sheet is not 1 to {MAX_SLOTS} slots of {SLOT_WORDS} words, or a set-up does not have one \
                 setting for each slot"
            ),
            Refusal::Slot => f.write_str("the sheet has no slot of that number"),
            Refusal::Caller => f.write_str("the slot does not belong to the calling clinic; clinic 0 has none"),
            Refusal::NoneFree => f.write_str("the clinic has no free slot"),
            Refusal::NotInUse => f.write_str("the slot is not in use; its clinic must take it first"),
            Refusal::Damaged => f.write_str(
                "what the slot holds is damaged; any accepted edit mends its lines, but bad settings, records or \
                 in-use words need a set-up, which empties every slot",
            ),
            Refusal::PastEnd { count } => {
                write!(f, "the edit reaches past the slot's end; it has {count} records")
            }
            Refusal::PartialRecord => {
                write!(f, "the inserted words are not whole records of {RECORD_WORDS} words")
            }
            Refusal::TooManyRecords => write!(f, "the slot would have more than {MAX_RECORDS} records"),
            Refusal::Record { record } => write!(
                f,
                "record {record} has a code point, class, size, advance, group or ruby count out of limits"
            ),
            Refusal::Ruby => {
                f.write_str("a ruby place's base advance, ruby count, size or index is out of limits")
            }
            Refusal::NotListed { record } => write!(
                f,
                "record {record}'s character is not in the published list of its class (JLReq Annex A; for class \
                 19 the unified ideographs too); full-width forms are in none"
            ),
            Refusal::Group { record } => write!(
                f,
                "record {record} differs in size or ruby count from its group, or is its group's seventeenth"
            ),
            Refusal::NoBreaking { record } => {
                write!(
                    f,
                    "the text from record {record} to where a line may next end does not fit in the measure; \
                     line 0 also holds the indent"
                )
            }
            Refusal::Limits { slot } => {
                write!(f, "the clinic, measure or indent for slot {slot} is out of limits")
            }
            Refusal::Leaflet(fault) => fault.fmt(f),
            Refusal::Unknown { number, place } => write!(f, "refused with number {number}, place {place}"),
        }
    }
}

// It has no source: a leaflet's fault is not what caused the refusal, it is told as the refusal itself, and would be
// told twice.
impl Error for Refusal {}
