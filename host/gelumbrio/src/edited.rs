//! What an edit says (document 02, request 03).

/// What an accepted edit or import did to the lines of its slot.
///
/// New lines before the redone ones are as they were, with the places of their records. Those after them
/// are old lines, moved only by the change in record and line numbers. Old lines are those that the rules
/// give the old records: in a slot that an older rule composed, places outside the redone lines may move too.
///
/// ```
/// use gelumbrio::{Clinic, Edited, Record, Sheet, SlotSettings};
///
/// let mut sheet = Sheet::new(1)?;
/// sheet.set_up(&[SlotSettings { clinic: Clinic(7), measure: 440, indent: 0 }])?;
/// let slot = sheet.take(Clinic(7))?;
/// let edited = sheet.edit(Clinic(7), slot, .., &[Record::new('薬', 80)?; 30])?;
/// assert_eq!(edited, Edited { lines: 6, redone: 6 });
/// // At the end, only the last lines are composed anew.
/// assert_eq!(sheet.edit(Clinic(7), slot, 30.., &[Record::new('薬', 80)?])?, Edited { lines: 7, redone: 3 });
/// # Ok::<(), Box<dyn std::error::Error>>(())
/// ```
#[derive(Debug, Clone, Copy, PartialEq, Eq)]
pub struct Edited {
    /// How many lines the slot has.
    pub lines: u32,
    /// How many of them are composed anew. The first is the line before the one that held the place, or
    /// line 0.
    pub redone: u32,
}
