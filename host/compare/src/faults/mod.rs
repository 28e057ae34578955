//! Faults planted into the second program, each of which the comparisons must find.
//!
//! A fault wraps the second program: it changes what goes in, or spoils what comes out. The first
//! few are document 01's "Easy errors a bidder will make".

mod altered;
mod calls;
mod edits;
mod fault;
mod gaps;
mod imports;
mod in_use;
mod lists;
mod pool;
mod redone;
mod rows;
mod slots;
mod spoiled;

pub use fault::{Fault, CLASSES_AS, DIGITS, FIELDS, NARROW_FIELDS, SINGLE, TABLES};
pub use imports::{Misimport, IMPORTED_WRONGLY, MISIMPORTS};
pub use in_use::{Misuse, On, MISUSES};
pub use lists::{wrong_lists, Mislisting, ASKED_WRONGLY, LOOKUPS};
pub use redone::{Misreading, MISREADINGS};
pub use rows::{Misrow, IN_BOTH_ROWS, IN_RUBY};
