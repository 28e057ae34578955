//! Which texts import reads and what it finds in them (document 02, request 05).
//!
//! The bytes are taken apart into elements, characters and tags, and the elements are then matched with a grammar:
//!
//! ```text
//! leaflet    = { plain character | ruby }
//! ruby       = <ruby> base { base } ( annotation | rp annotation rp ) </ruby>
//! annotation = <rt> inner { inner } </rt>
//! rp         = <rp> { inner } </rp>
//! ```
//!
//! A plain character and a base are of some list of request 04, an inner character is any, and none of them is an
//! angle bracket or an ampersand. Where a text is refused, [`fault`] asks of its beginnings which still has an
//! accepted text.

pub mod by_hand;
pub mod elements;
pub mod fault;
pub mod grammar;
pub mod well_formed;

use crate::lists::class_of;
use crate::records::RECORD_WORDS;
use elements::{elements, Element};
use grammar::{Part, Parts};

/// The words of the records that a leaflet's characters become in this size; or the byte at which its first fault
/// starts (answer 17).
pub fn records(text: &[u8], size: u32) -> Result<Vec<u32>, usize> {
    let text = elements(text);
    let mut parts = Parts::of(&text.elements);
    let mut words = Vec::new();
    // Ruby elements are numbered from 1.
    let mut group = 0;
    for part in parts.by_ref() {
        match part {
            Part::Plain(character) => words.extend(record(character, size, 0, 0)),
            Part::Ruby { base, ruby } => {
                group += 1;
                let characters = base.iter().filter_map(Element::character);
                words.extend(characters.flat_map(|character| record(character, size, group, ruby.len())));
            }
        }
    }
    if parts.are_all() {
        Ok(words)
    } else {
        Err(fault::first_fault(&text))
    }
}

/// The record of a character with this group number and so many ruby characters.
fn record(character: char, size: u32, group: usize, ruby_count: usize) -> [u32; RECORD_WORDS] {
    // The grammar lets no other character through than one that has a class.
    let class = class_of(character.into()).unwrap_or(0);
    [character.into(), class, size, advance(class, size), word(group), word(ruby_count)]
}

/// Half the size for the classes for which document 01 asks that, and for those two for which request 05 does.
fn advance(class: u32, size: u32) -> u32 {
    match class {
        1 | 2 | 5 | 6 | 7 => size / 2,
        3 | 27 => size / 2,
        _ => size,
    }
}

/// The number, or the largest word where it is larger.
fn word(number: usize) -> u32 {
    u32::try_from(number).unwrap_or(u32::MAX)
}
