//! The second program: document 01's rules, as document 02's requests amend them, in objects and
//! vectors.
//!
//! It works on the same raw words as the proved program and shares no code with it, so that the
//! two can be run side by side. One module holds one part of document 01:
//!
//! | Module | Document 01 |
//! |---|---|
//! | [`answer`] | "Refusal numbers, in the order they are checked" |
//! | [`records`] | "Records and groups", a record's own rules and the group rules; request 04 |
//! | [`lists`] | which characters a class has: document 02, request 04 |
//! | [`units`] | "Records and groups", units and the two rows of a group; request 06 |
//! | [`spacing`] | "Space between units", and how far each space gives way |
//! | [`breaking`] | "Breaks and adjustment", where lines end; request 01 |
//! | [`adjust`] | "Breaks and adjustment", how a line is brought to the measure |
//! | [`compose`] | the lines and places of a whole paragraph |
//! | [`redone`] | how many lines an edit composes anew: document 02, request 03 |
//! | [`sheet`] | "The sheet", its layout and its calls |
//! | [`pool`] | taking a slot and giving one back: document 02, request 07 |
//! | [`leaflet`] | which texts are leaflets, and their records: document 02, request 05 |
//! | [`import`](mod@import) | a leaflet's records in place of a slot's: document 02, request 05 |
//! | [`book`] | "The book of demand 3" |
//! | [`by_hand`] | "Composed by hand", C1 to C13, and the requests' cases, to test a program with |
//! | [`kept`] | what request 03 promises of the other lines, to test a program with |
//!
//! No input makes a call panic. Sums stay far below 2^32: a paragraph has at most 256 units, a
//! unit's advance is at most 128,000 (64 ruby characters of size 2,000), a space at most 3,000 and
//! an indent below 1,000,000. Products are taken in 64 bits.

#![forbid(unsafe_code)]

pub mod adjust;
pub mod answer;
pub mod book;
pub mod breaking;
pub mod by_hand;
pub mod compose;
pub mod import;
pub mod kept;
pub mod leaflet;
pub mod lists;
pub mod pool;
pub mod records;
pub mod redone;
pub mod sheet;
pub mod spacing;
pub mod units;

pub use answer::{Answer, EditAnswer, ImportAnswer, RubyPlace};
pub use import::{import, Import};
pub use lists::{class_of, in_list};
pub use pool::{give_back, take};
pub use sheet::{edit, read, read_number, set_up, slot_words, Edit};
pub use units::ruby_place;
