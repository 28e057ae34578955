//! The limits of the calls' numbers (document 01, "The sheet" and "Records and groups").
//!
//! What is out of them is refused by the library itself, with the number that its table gives; here they are for
//! programs that would rather ask before.
//!
//! ```
//! use gelumbrio::limits::{MAX_RECORDS, MEASURES};
//!
//! let measure = 22 * 80;
//! assert!(MEASURES.contains(&measure));
//! assert!("食後に、1回2錠。".chars().count() <= MAX_RECORDS);
//! ```

use std::ops::RangeInclusive;

/// The most slots of a sheet, which has at least one.
pub const MAX_SLOTS: usize = 64;
/// The most records of a slot.
pub const MAX_RECORDS: usize = 256;
/// The most lines of a slot: every line has a record.
pub const MAX_LINES: usize = MAX_RECORDS;
/// The highest number of a clinic. The lowest is 1: 0 leaves a slot unassigned.
pub const MAX_CLINIC: u32 = 65_535;
/// The measures that a slot may have. Its indent is below its measure.
pub const MEASURES: RangeInclusive<u32> = 8..=1_000_000;
/// The sizes that a record may have: those of them that are multiples of [`SIZE_STEP`].
pub const SIZES: RangeInclusive<u32> = 8..=4_000;
/// Sizes are multiples of this, so that every space between characters is a whole number.
pub const SIZE_STEP: u32 = 8;
/// The highest number of a group. The lowest is 1: a record of group 0 is in none.
pub const MAX_GROUP: u32 = 65_535;
/// The most records of a group.
pub const MAX_GROUPED: usize = 16;
/// The most ruby characters over a group, which has at least one.
pub const MAX_RUBY: u32 = 64;
/// The largest base advance of which a ruby place can be asked. The least is 1.
pub const MAX_BASE_ADVANCE: u32 = 64_000;
