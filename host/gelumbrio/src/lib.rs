//! A Japanese line composer on a shared sheet of 32-bit words.
//!
//! The composer is a proved program with a C interface; this crate is its safe Rust face. Document
//! 01 says what every call answers and every word of the sheet afterwards.
//!
//! ```
//! use gelumbrio::{Clinic, Kind, Record, Refusal, Sheet, SlotSettings};
//!
//! let mut sheet = Sheet::new(2)?;
//! sheet.set_up(&[
//!     SlotSettings { clinic: Clinic(7), measure: 440, indent: 0 },
//!     SlotSettings { clinic: Clinic(9), measure: 800, indent: 0 },
//! ])?;
//! let slot = sheet.take(Clinic(7))?;
//!
//! // Six ideographs of size 80 in a measure of 440.
//! let edited = sheet.edit(Clinic(7), slot, .., &[Record::new('漢', 80)?; 6])?;
//! assert_eq!((edited.lines, edited.redone), (2, 2));
//!
//! let lines = sheet.lines(Clinic(7), slot)?;
//! assert_eq!((lines[0].kind, lines[0].xs.as_slice()), (Kind::Flush, &[0, 90, 180, 270, 360][..]));
//! assert_eq!((lines[1].kind, lines[1].end_x), (Kind::Final, 80));
//!
//! // Another clinic's slot stays closed.
//! assert_eq!(sheet.read(Clinic(9), slot), Err(Refusal::Caller));
//!
//! // A slot that is given back is empty, and free to be taken again.
//! sheet.give_back(Clinic(7), slot)?;
//! assert_eq!(sheet.read(Clinic(7), slot), Err(Refusal::NotInUse));
//! # Ok::<(), Box<dyn std::error::Error>>(())
//! ```
//!
//! A leaflet from the web, with ruby, is imported as it is:
//!
//! ```
//! # use gelumbrio::{Clinic, Refusal, Sheet, SlotSettings};
//! # let mut sheet = Sheet::new(1)?;
//! # sheet.set_up(&[SlotSettings { clinic: Clinic(7), measure: 440, indent: 0 }])?;
//! # let slot = sheet.take(Clinic(7))?;
//! let text = "<ruby>頓服<rt>とんぷく</rt></ruby>は、1日3回まで。";
//! let imported = sheet.import(Clinic(7), slot, 80, text)?;
//! assert_eq!(imported.lines, 2);
//! # Ok::<(), Refusal>(())
//! ```
//!
//! A clinic and a slot number are different kinds of number. This compiles:
//!
//! ```
//! # use gelumbrio::{Clinic, Sheet, SlotNumber};
//! # let mut sheet = Sheet::new(1).unwrap();
//! let _ = sheet.edit(Clinic(1), SlotNumber(0), .., &[]);
//! let _ = sheet.edit_words(Clinic(1), SlotNumber(0), 0, 0, &[]);
//! let _ = sheet.give_back(Clinic(1), SlotNumber(0));
//! let _ = sheet.take(Clinic(1));
//! ```
//!
//! and with the one in the other's place it does not:
//!
//! ```compile_fail,E0308
//! # use gelumbrio::{Clinic, Sheet, SlotNumber};
//! # let mut sheet = Sheet::new(1).unwrap();
//! let _ = sheet.edit(SlotNumber(0), Clinic(1), .., &[]);
//! ```
//!
//! ```compile_fail,E0308
//! # use gelumbrio::{Clinic, Sheet, SlotNumber};
//! # let mut sheet = Sheet::new(1).unwrap();
//! let _ = sheet.edit_words(SlotNumber(0), Clinic(1), 0, 0, &[]);
//! ```
//!
//! ```compile_fail,E0308
//! # use gelumbrio::{Clinic, Sheet, SlotNumber};
//! # let mut sheet = Sheet::new(1).unwrap();
//! let _ = sheet.give_back(SlotNumber(0), Clinic(1));
//! ```
//!
//! ```compile_fail,E0308
//! # use gelumbrio::{Sheet, SlotNumber};
//! # let mut sheet = Sheet::new(1).unwrap();
//! let _ = sheet.take(SlotNumber(0));
//! ```
//!
//! ```compile_fail,E0308
//! # use gelumbrio::{SlotNumber, SlotSettings};
//! let _ = SlotSettings { clinic: SlotNumber(0), measure: 440, indent: 0 };
//! ```

mod class;
mod edited;
pub mod layout;
mod leaflet;
pub mod limits;
mod lines;
mod place;
pub mod raw;
mod record;
mod refusal;
mod ruby;
mod sheet;
mod slot;
mod stretch;

pub use class::{class_of, in_list, Class, NoClass};
pub use edited::Edited;
pub use leaflet::{Excerpt, Found, LeafletFault};
pub use lines::{Kind, Line};
pub use place::TextPlace;
pub use raw::{Clinic, SlotNumber};
pub use record::Record;
pub use refusal::Refusal;
pub use ruby::ruby_place;
pub use sheet::Sheet;
pub use slot::{Slot, SlotSettings};

/// The README's Rust snippet, compiled and run as a doc-test.
#[cfg(doctest)]
#[doc = include_str!("../../../README.md")]
pub struct Readme;
