//! A sheet that owns its words (document 01, "The sheet").

mod calls;

use crate::layout::SLOT_WORDS;
use crate::limits::MAX_SLOTS;
use crate::raw::SlotNumber;
use crate::refusal::Refusal;
use crate::slot::Slot;

/// A sheet of 1 to [`MAX_SLOTS`] slots. A program should hold at most 5 on one sheet.
///
/// ```
/// use gelumbrio::{Clinic, Record, Sheet, SlotSettings};
///
/// let mut sheet = Sheet::new(1)?;
/// sheet.set_up(&[SlotSettings { clinic: Clinic(7), measure: 440, indent: 0 }])?;
/// let slot = sheet.take(Clinic(7))?;
/// sheet.import(Clinic(7), slot, 80, "1回2錠")?;
/// sheet.edit(Clinic(7), slot, 2..3, &[Record::new('3', 80)?])?;
/// assert_eq!(sheet.lines(Clinic(7), slot)?.len(), 1);
/// # Ok::<(), Box<dyn std::error::Error>>(())
/// ```
#[derive(Debug, Clone, PartialEq, Eq)]
pub struct Sheet {
    words: Vec<u32>,
}

impl Sheet {
    /// A sheet of this many slots, none of them assigned. Call [`set_up`](Sheet::set_up) next.
    ///
    /// ```
    /// use gelumbrio::{Refusal, Sheet};
    ///
    /// assert_eq!(Sheet::new(5)?.slots(), 5);
    /// assert_eq!(Sheet::new(65), Err(Refusal::Length));
    /// # Ok::<(), Refusal>(())
    /// ```
    pub fn new(slots: usize) -> Result<Sheet, Refusal> {
        if !(1..=MAX_SLOTS).contains(&slots) {
            return Err(Refusal::Length);
        }
        Ok(Sheet { words: vec![0; slots * SLOT_WORDS] })
    }

    /// A sheet of words that were kept, which may be any.
    ///
    /// Damage shows as [`Refusal::Damaged`] in the call that meets it. An edit meets a measure or
    /// indent out of limits, a record count over [`MAX_RECORDS`](crate::limits::MAX_RECORDS), records that
    /// break a rule or are not in their classes' lists, and an in-use word above 1, which a read meets too; only a
    /// set-up mends these, and it empties every slot. A read meets a line count over
    /// [`MAX_LINES`](crate::limits::MAX_LINES), and [`lines`](Sheet::lines) meets lines that do not share out the
    /// records; any accepted edit mends these, even an empty one. It also mends what no call judges, the x positions
    /// and the words past the counts. Another clinic's number in the slot shows as [`Refusal::Caller`].
    ///
    /// An in-use word of 0 shows as [`Refusal::NotInUse`]. Every slot of a sheet has it that was filled before there
    /// was [`take`](Sheet::take): once a slot is taken, its text is there again.
    ///
    /// ```
    /// use gelumbrio::layout::SLOT_WORDS;
    /// use gelumbrio::{Refusal, Sheet};
    ///
    /// let sheet = Sheet::new(2)?;
    /// assert_eq!(Sheet::from_words(sheet.words().to_vec())?, sheet);
    /// assert_eq!(Sheet::from_words(vec![0; SLOT_WORDS + 1]), Err(Refusal::Length));
    /// # Ok::<(), Refusal>(())
    /// ```
    pub fn from_words(words: Vec<u32>) -> Result<Sheet, Refusal> {
        let slots = words.len() / SLOT_WORDS;
        if !words.len().is_multiple_of(SLOT_WORDS) || !(1..=MAX_SLOTS).contains(&slots) {
            return Err(Refusal::Length);
        }
        Ok(Sheet { words })
    }

    /// P, the number of slots.
    ///
    /// ```
    /// use gelumbrio::Sheet;
    ///
    /// assert_eq!(Sheet::new(3)?.slots(), 3);
    /// # Ok::<(), gelumbrio::Refusal>(())
    /// ```
    pub fn slots(&self) -> usize {
        self.words.len() / SLOT_WORDS
    }

    /// All words of the sheet. [`layout`](crate::layout) says what each is.
    ///
    /// ```
    /// use gelumbrio::layout::SLOT_WORDS;
    /// use gelumbrio::Sheet;
    ///
    /// assert_eq!(Sheet::new(3)?.words(), [0; 3 * SLOT_WORDS]);
    /// # Ok::<(), gelumbrio::Refusal>(())
    /// ```
    pub fn words(&self) -> &[u32] {
        &self.words
    }

    /// What a slot's words say, whoever asks. It judges nothing; [`lines`](Sheet::lines) does.
    ///
    /// ```
    /// use gelumbrio::{Clinic, Sheet, SlotNumber};
    ///
    /// let sheet = Sheet::new(1)?;
    /// assert_eq!(sheet.slot(SlotNumber(0)).map(|slot| slot.clinic()), Some(Clinic(0)));
    /// assert!(sheet.slot(SlotNumber(1)).is_none());
    /// # Ok::<(), gelumbrio::Refusal>(())
    /// ```
    pub fn slot(&self, slot: SlotNumber) -> Option<Slot<'_>> {
        let (slots, _) = self.words.as_chunks::<SLOT_WORDS>();
        slots.get(slot.0 as usize).map(Slot::new)
    }

    /// All words of the sheet, to be kept.
    ///
    /// ```
    /// use gelumbrio::Sheet;
    ///
    /// let sheet = Sheet::new(2)?;
    /// let kept = sheet.clone().into_words();
    /// assert_eq!(Sheet::from_words(kept)?, sheet);
    /// # Ok::<(), gelumbrio::Refusal>(())
    /// ```
    pub fn into_words(self) -> Vec<u32> {
        self.words
    }
}
