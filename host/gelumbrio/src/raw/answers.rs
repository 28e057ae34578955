//! The numbers that calls take, and what they answer, as the C interface has them.

/// A clinic's number: 1 to [`MAX_CLINIC`](crate::limits::MAX_CLINIC), or 0 for an unassigned slot.
///
/// ```
/// use gelumbrio::{Clinic, Sheet, SlotNumber};
///
/// // Before its set-up a slot is nobody's.
/// let sheet = Sheet::new(1)?;
/// assert_eq!(sheet.slot(SlotNumber(0)).map(|slot| slot.clinic()), Some(Clinic(0)));
/// # Ok::<(), gelumbrio::Refusal>(())
/// ```
#[repr(C)]
#[derive(Debug, Clone, Copy, PartialEq, Eq, PartialOrd, Ord, Hash)]
pub struct Clinic(pub u32);

/// A slot's number on its sheet, from 0.
///
/// ```
/// use gelumbrio::{Sheet, SlotNumber};
///
/// let sheet = Sheet::new(2)?;
/// assert!(sheet.slot(SlotNumber(1)).is_some() && sheet.slot(SlotNumber(2)).is_none());
/// # Ok::<(), gelumbrio::Refusal>(())
/// ```
#[repr(C)]
#[derive(Debug, Clone, Copy, PartialEq, Eq, PartialOrd, Ord, Hash)]
pub struct SlotNumber(pub u32);

/// The answer of set-up, of taking and of giving back.
///
/// ```
/// use gelumbrio::raw::{self, Answer, Clinic};
///
/// // No words are no sheet.
/// assert_eq!(raw::take(&mut [], Clinic(7)), Answer { number: 1, place: 0 });
/// ```
#[repr(C)]
#[derive(Debug, Clone, Copy, PartialEq, Eq)]
pub struct Answer {
    /// 0, or the refusal's number.
    pub number: u32,
    /// Where the number is 0, P for set-up, the slot's number for taking and 0 for giving back; otherwise the
    /// refusal's place.
    pub place: u32,
}

/// The answer of edit.
///
/// ```
/// use gelumbrio::layout::SLOT_WORDS;
/// use gelumbrio::raw::{self, Clinic, EditAnswer, SlotNumber};
///
/// let mut sheet = vec![0; SLOT_WORDS];
/// let answer = raw::edit(&mut sheet, Clinic(7), SlotNumber(0), 0, 0, &[]);
/// assert_eq!(answer, EditAnswer { number: 3, place: 0, redone: 0 });
/// ```
#[repr(C)]
#[derive(Debug, Clone, Copy, PartialEq, Eq)]
pub struct EditAnswer {
    /// 0, or the refusal's number.
    pub number: u32,
    /// The line count where the number is 0, otherwise the refusal's place.
    pub place: u32,
    /// How many lines are composed anew; 0 where the edit is refused.
    pub redone: u32,
}

/// The answer of import.
///
/// ```
/// use gelumbrio::raw::{self, Clinic, ImportAnswer, SlotNumber};
///
/// // The text is judged first, the sheet after it.
/// let import = |text: &[u8]| raw::import(&mut [], Clinic(7), SlotNumber(0), 80, text);
/// assert_eq!(import("食後&".as_bytes()), ImportAnswer { number: 17, redone: 0, place: 6 });
/// assert_eq!(import("食後".as_bytes()), ImportAnswer { number: 1, redone: 0, place: 0 });
/// ```
#[repr(C)]
#[derive(Debug, Clone, Copy, PartialEq, Eq)]
pub struct ImportAnswer {
    /// 0, or the refusal's number.
    pub number: u32,
    /// How many lines are composed anew; 0 where the import is refused.
    pub redone: u32,
    /// The line count where the number is 0, a place in bytes of the text where it is 17, otherwise the refusal's
    /// place.
    pub place: usize,
}

/// The answer of ruby place.
///
/// ```
/// use gelumbrio::raw::{self, RubyPlace};
///
/// assert_eq!(raw::ruby_place(160, 1, 80, 0), RubyPlace { number: 0, offset: 60 });
/// ```
#[repr(C)]
#[derive(Debug, Clone, Copy, PartialEq, Eq)]
pub struct RubyPlace {
    /// 0, or 8 where an argument is out of limits.
    pub number: u32,
    /// The offset from the start of the group.
    pub offset: u32,
}

/// A part of the sheet: the words from `start` up to `end`.
#[repr(C)]
pub(super) struct Part {
    pub(super) start: usize,
    pub(super) end: usize,
}
