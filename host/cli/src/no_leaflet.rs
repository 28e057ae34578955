//! A text that is no leaflet: where, why, and what to write in its place (document 02, request 05).

use gelumbrio::{class_of, Found, LeafletFault};

use crate::characters::named;
use crate::failure::Failure;
use crate::leaflet::Leaflet;

/// A text that is no leaflet.
pub fn no_leaflet(fault: LeafletFault, leaflet: &Leaflet) -> Failure {
    let length = match fault.found {
        Found::Tag(tag) => String::from_utf8_lossy(tag.as_bytes()).chars().count(),
        _ => 1,
    };
    let spot = leaflet.spot(fault.offset, length);
    Failure::numbered(17, fault.found.to_string()).at(spot).advising(mending(fault.found))
}

/// What to write in place of what cannot stand in a leaflet.
fn mending(found: Found) -> String {
    match found {
        Found::Character('\n' | '\r') => {
            "A leaflet is one paragraph on one line: join its lines.".to_string()
        }
        Found::Character(' ' | '\t') => "Leave it out, or write the ideographic space, U+3000.".to_string(),
        Found::Character('&') => "Write the character itself; character references are not read.".to_string(),
        Found::Character('>') => "〈 and 〉 may stand in a text; < and > stand in tags alone.".to_string(),
        Found::Character('（' | '［' | '｛') => {
            "Write '〔' (U+3014); Western brackets are no Japanese ones, and may end a line.".to_string()
        }
        Found::Character('）' | '］' | '｝') => {
            "Write '〕' (U+3015); Western brackets are no Japanese ones, and may start a line.".to_string()
        }
        Found::Character('\u{FF66}'..='\u{FF9F}') => "Write full-width kana.".to_string(),
        Found::Character('\u{3099}' | '\u{309A}') => {
            "Write the kana and its mark as one character.".to_string()
        }
        Found::Character(character) => match stands_for(character) {
            Some(instead) => format!("Write {} in its place.", named(instead)),
            None if class_of(character).is_some() => {
                "In a ruby element, after the base, text stands in <rt> and <rp> alone.".to_string()
            }
            None => "Write it with other characters: those of JLReq's lists and ideographs can be set."
                .to_string(),
        },
        Found::Tag(_) => {
            "A ruby element is <ruby>base<rt>ruby</rt></ruby>, with an <rp> on both sides of the <rt> or on \
             neither. There are no other tags, and nothing else stands in them."
                .to_string()
        }
        Found::IllFormed(_) => {
            "Save the file as UTF-8; it may be in Shift_JIS or another encoding.".to_string()
        }
        Found::End => "Its end tags are missing: </rt>, </ruby>.".to_string(),
        other => other.to_string(),
    }
}

/// The character of the lists that a look-alike stands for, if it is one.
fn stands_for(character: char) -> Option<char> {
    let instead = match character {
        // What input methods give for the wave dash; then the full-width forms of ASCII.
        '\u{FF5E}' => '〜',
        '\u{FF01}'..='\u{FF5D}' => char::from_u32(u32::from(character) - 0xFEE0)?,
        '\u{FF61}' => '。',
        '\u{FF62}' => '「',
        '\u{FF63}' => '」',
        '\u{FF64}' => '、',
        '\u{FF65}' => '・',
        '\u{2015}' | '\u{2500}' => '—',
        '\u{2011}' => '‐',
        '\u{FFE5}' => '¥',
        '\u{FF5F}' => '⦅',
        '\u{FF60}' => '⦆',
        _ => return None,
    };
    (class_of(instead).is_some() && !matches!(instead, '<' | '>' | '&')).then_some(instead)
}
