//! A case: a sheet and the calls that are made on it.

use std::fmt;

use crate::layout::SLOT;
use crate::random::Random;

/// How many bytes of a text are told.
const MOST_SHOWN: usize = 600;

/// A record's words.
pub type Words = [u32; 6];

/// A call, or damage done to the sheet between calls.
#[derive(Debug, Clone, PartialEq, Eq)]
pub enum Call {
    /// Set-up.
    SetUp {
        /// The clinic of each slot.
        clinics: Vec<u32>,
        /// The measure of each slot.
        measures: Vec<u32>,
        /// The indent of each slot.
        indents: Vec<u32>,
    },
    /// Take.
    Take {
        /// The calling clinic.
        caller: u32,
    },
    /// Give back.
    GiveBack {
        /// The calling clinic.
        caller: u32,
        /// The slot's number.
        slot: u32,
    },
    /// Edit.
    Edit {
        /// The calling clinic.
        caller: u32,
        /// The slot's number.
        slot: u32,
        /// The place, in records.
        place: u32,
        /// How many records to delete.
        deleted: u32,
        /// The words to insert.
        inserted: Vec<u32>,
    },
    /// Import.
    Import {
        /// The calling clinic.
        caller: u32,
        /// The slot's number.
        slot: u32,
        /// The size of every record.
        size: u32,
        /// The leaflet, which may be any bytes.
        text: Vec<u8>,
    },
    /// Read with its companion.
    Read {
        /// The calling clinic.
        caller: u32,
        /// The slot's number.
        slot: u32,
    },
    /// A word is written past the calls. The book knows nothing of it.
    Damage {
        /// Which word of the sheet.
        at: usize,
        /// What it becomes.
        word: u32,
    },
}

/// A sheet and the calls on it.
#[derive(Debug, Clone, PartialEq, Eq)]
pub struct Case {
    /// The sheet's length in words.
    pub length: usize,
    /// The seed of the words it holds at first; zeros without one.
    pub junk: Option<u64>,
    /// The calls, in order.
    pub calls: Vec<Call>,
}

impl Call {
    /// Sets up a sheet of one slot and takes it, so that it can be edited.
    pub fn one_slot(clinic: u32, measure: u32, indent: u32) -> [Call; 2] {
        let set_up = Call::SetUp { clinics: vec![clinic], measures: vec![measure], indents: vec![indent] };
        [set_up, Call::Take { caller: clinic }]
    }

    /// The edit that puts these records in place of the `deleted` ones of slot 0.
    pub fn replace(caller: u32, deleted: u32, inserted: &[u32]) -> Call {
        Call::Edit { caller, slot: 0, place: 0, deleted, inserted: inserted.to_vec() }
    }

    /// The import of this text into slot 0.
    pub fn import(caller: u32, size: u32, text: impl AsRef<[u8]>) -> Call {
        Call::Import { caller, slot: 0, size, text: text.as_ref().to_vec() }
    }
}

impl Case {
    /// The words that the sheet holds at first.
    pub fn sheet(&self) -> Vec<u32> {
        match self.junk {
            None => vec![0; self.length],
            Some(seed) => {
                let mut random = Random::new(seed);
                (0..self.length).map(|_| random.word()).collect()
            }
        }
    }
}

impl fmt::Display for Case {
    fn fmt(&self, f: &mut fmt::Formatter<'_>) -> fmt::Result {
        write!(
            f,
            "a sheet of {} words ({} slots and {} words), ",
            self.length,
            self.length / SLOT,
            self.length % SLOT
        )?;
        match self.junk {
            None => writeln!(f, "all 0")?,
            Some(seed) => writeln!(f, "junk of seed {seed}")?,
        }
        self.calls.iter().try_for_each(|call| writeln!(f, "  {call}"))
    }
}

impl fmt::Display for Call {
    fn fmt(&self, f: &mut fmt::Formatter<'_>) -> fmt::Result {
        match self {
            Call::SetUp { clinics, measures, indents } => {
                write!(f, "set-up: clinics {clinics:?}, measures {measures:?}, indents {indents:?}")
            }
            Call::Take { caller } => write!(f, "take: caller {caller}"),
            Call::GiveBack { caller, slot } => write!(f, "give back: caller {caller}, slot {slot}"),
            Call::Edit { caller, slot, place, deleted, inserted } => {
                write!(f, "edit: caller {caller}, slot {slot}, place {place}, delete {deleted}, insert")?;
                inserted.chunks(6).try_for_each(|record| write!(f, "\n    {record:?}"))
            }
            Call::Import { caller, slot, size, text } => {
                write!(f, "import: caller {caller}, slot {slot}, size {size}, ")?;
                let shown = text.get(..MOST_SHOWN);
                write!(f, "{}{} bytes: ", if shown.is_some() { "the first of " } else { "" }, text.len())?;
                let shown = shown.unwrap_or(text);
                match std::str::from_utf8(shown) {
                    Ok(text) => write!(f, "{text:?}"),
                    Err(_) => write!(f, "b\"{}\"", shown.escape_ascii()),
                }
            }
            Call::Read { caller, slot } => write!(f, "read: caller {caller}, slot {slot}"),
            Call::Damage { at, word } => write!(f, "damage: {} becomes {word}", crate::layout::name(*at)),
        }
    }
}
