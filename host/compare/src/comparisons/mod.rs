//! The comparisons: each runs the program under test beside the second one and says what it saw.

pub mod cases;
pub mod digits;
pub mod gaps;
pub mod junk;
pub mod leaflet;
pub mod limits;
pub mod lists;
pub mod pairs;
pub mod paragraphs;
pub mod redone;
pub mod ruby;
pub mod sequences;
pub mod short;
pub mod slots;

use crate::failure::Failure;
use crate::program::Program;
use crate::scope::Scope;
use crate::tally::Tally;

/// A comparison.
pub type Comparison = fn(&dyn Program, Scope) -> Result<Tally, Failure>;

/// All comparisons, the quickest first.
pub const ALL: [Comparison; 14] = [
    cases::compare,
    ruby::compare,
    limits::compare,
    lists::compare,
    slots::compare,
    junk::compare,
    digits::compare,
    pairs::compare,
    gaps::compare,
    paragraphs::compare,
    redone::compare,
    sequences::compare,
    short::compare,
    leaflet::compare,
];
