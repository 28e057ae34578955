//! Lines of a slot, as they are stored (document 01, "The sheet").

use std::fmt;

use crate::layout::{LINES_AT, LINE_WORDS, PLACES_AT, PLACE_WORDS};
use crate::slot::Slot;

/// How a line ends.
///
/// ```
/// use gelumbrio::Kind;
///
/// assert_eq!([Kind::Flush, Kind::Short, Kind::Final].map(|kind| kind.to_string()), ["flush", "short", "final"]);
/// ```
#[derive(Debug, Clone, Copy, PartialEq, Eq, Hash)]
pub enum Kind {
    /// At the measure.
    Flush,
    /// Before it, as nothing in the line could be stretched so far.
    Short,
    /// It is the paragraph's last line, which is never stretched.
    Final,
}

/// A composed line.
///
/// ```
/// use gelumbrio::{Clinic, Kind, Line, Record, Sheet, SlotSettings};
///
/// let mut sheet = Sheet::new(1)?;
/// sheet.set_up(&[SlotSettings { clinic: Clinic(7), measure: 100, indent: 0 }])?;
/// let slot = sheet.take(Clinic(7))?;
/// sheet.edit(Clinic(7), slot, .., &[Record::new('錠', 80)?; 2])?;
/// // Nothing in a line of one character could be stretched.
/// assert_eq!(sheet.lines(Clinic(7), slot)?, [
///     Line { first_record: 0, end_x: 80, kind: Kind::Short, xs: vec![0] },
///     Line { first_record: 1, end_x: 80, kind: Kind::Final, xs: vec![0] },
/// ]);
/// # Ok::<(), Box<dyn std::error::Error>>(())
/// ```
#[derive(Debug, Clone, PartialEq, Eq)]
pub struct Line {
    /// The number of its first record.
    pub first_record: u32,
    /// The x at which its last unit ends.
    pub end_x: u32,
    /// How it ends.
    pub kind: Kind,
    /// The x of each of its records.
    pub xs: Vec<u32>,
}

/// The lines that these line words are of a slot, unless they do not share out its records.
pub(crate) fn typed(slot: Slot<'_>, lines: &[u32]) -> Option<Vec<Line>> {
    let (places, _) = slot.words()[PLACES_AT..LINES_AT].as_chunks::<PLACE_WORDS>();
    let places = places.get(..slot.record_count() as usize)?;

    let (lines, _) = lines.as_chunks::<LINE_WORDS>();
    // A line ends where the next one starts, the last at the record count.
    let starts = lines.iter().map(|&[first, ..]| first as usize);
    let bounds: Vec<usize> = starts.chain([places.len()]).collect();
    if bounds[0] != 0 || !bounds.is_sorted_by(|start, end| start < end) {
        return None;
    }
    let typed = lines.iter().zip(bounds.windows(2)).map(|(&[first_record, end_x, kind], bounds)| {
        let xs = places[bounds[0]..bounds[1]].iter().map(|&[x, _line]| x).collect();
        let kind = Kind::new(kind)?;
        let is_last = bounds[1] == places.len();
        (is_last == (kind == Kind::Final)).then_some(Line { first_record, end_x, kind, xs })
    });
    typed.collect()
}

impl Kind {
    fn new(word: u32) -> Option<Kind> {
        match word {
            1 => Some(Kind::Flush),
            2 => Some(Kind::Short),
            3 => Some(Kind::Final),
            _ => None,
        }
    }
}

/// As document 01 calls it.
impl fmt::Display for Kind {
    fn fmt(&self, f: &mut fmt::Formatter<'_>) -> fmt::Result {
        f.write_str(match self {
            Kind::Flush => "flush",
            Kind::Short => "short",
            Kind::Final => "final",
        })
    }
}
