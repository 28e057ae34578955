//! How a character is drawn whose shape takes another room than its record has.
//!
//! Fonts draw brackets, points and middle dots in a square of the character's size, with an empty half; a record of
//! them has half the size, and the other half is the space that the rules set, or do not. Western characters have
//! widths of their own, and a record has the width that it says.

use gelumbrio::{Class, Record};

use crate::characters::{columns, is_wide, printable, REPLACEMENT};

/// The Western characters whose shapes take no more than about half of their squares: 0.58 of them in Noto Serif CJK
/// JP, the first of the picture's faces, and less in others. Figures are among them, so that a number is one element.
const NARROW: &str = "\
    !\"#$'()*+,-./0123456789:;<=>?IJ[\\]^_`acefgijlrstvxyz{|}~\u{A0}¡¢£¤¥¦¨ª«\u{AD}®¯°²³´·¸¹º»¿ÌÍÎÏàáâãäåçèéêëìíîïýÿ\
    āăąćĉčēęěĝĪīĴĵĺľłŕřśŝşšţťźżžǂǎǐɔɕɜɟɨɬɭɹɺɻɽɾʂʃʄʈʐʑʔʕʝʡʢˈˌːˑ˘˙˛˝˞˥˦˧˨˩Ιγδεζθινξοςτχавгезсухьэёὲέ\
    –‖‘’“”†‡•′″‾€−";

/// A character, where it stands, and how it is drawn.
#[derive(Debug, Clone, Copy, PartialEq, Eq)]
pub struct Shape {
    /// The character, or what is shown for it.
    pub character: char,
    /// Its size.
    pub size: u32,
    /// Its advance.
    pub advance: u32,
    /// Its x.
    pub x: u32,
    /// How it is drawn.
    pub drawn: Drawn,
}

/// How a character is drawn.
#[derive(Debug, Clone, Copy, PartialEq, Eq)]
pub enum Drawn {
    /// As wide as it is, from so far before its x on.
    FromStart {
        /// How far before.
        before: u32,
    },
    /// As wide as it is, in the middle of its advance.
    InMiddle,
    /// Made as narrow as its advance.
    Condensed,
    /// Made so small that its square is as wide as its advance.
    Smaller,
}

impl Shape {
    /// A record's character.
    pub fn of_record(record: &Record, x: u32) -> Shape {
        let &Record { size, advance, .. } = record;
        let character = printable(record.character().unwrap_or(REPLACEMENT));
        Shape { character, size, advance, x, drawn: drawn(record) }
    }

    /// A ruby character of this size.
    pub fn of_ruby(character: char, size: u32, x: u32) -> Shape {
        let character = printable(character);
        let drawn = if is_wide(character) { Drawn::FromStart { before: 0 } } else { Drawn::InMiddle };
        Shape { character, size, advance: size, x, drawn }
    }

    /// Whether it can be one element with others: it is drawn as it is, and is a single unit of 16 bits, in which an
    /// element's places are counted.
    pub fn joins(&self) -> bool {
        !matches!(self.drawn, Drawn::Condensed | Drawn::Smaller) && u32::from(self.character) <= 0xFFFF
    }
}

/// How far before a record's x its character's square starts.
pub fn leading(record: &Record) -> u32 {
    match (Class::from_number(record.class), record.character().is_some_and(is_wide)) {
        // An opening bracket's shape is in the right half, a middle dot's in the middle.
        (Some(Class::OpeningBracket), true) => record.size / 2,
        (Some(Class::MiddleDot), true) => record.size / 4,
        _ => 0,
    }
}

fn drawn(record: &Record) -> Drawn {
    use Class::{ClosingBracket, Comma, FullStop, MiddleDot, OpeningBracket, Western};
    let &Record { class, size, advance, .. } = record;
    let Some(character) = record.character() else { return Drawn::Condensed };
    match Class::from_number(class) {
        Some(OpeningBracket | ClosingBracket | MiddleDot | FullStop | Comma) if is_wide(character) => {
            Drawn::FromStart { before: leading(record) }
        }
        class if advance == size && class != Some(Western) => Drawn::FromStart { before: 0 },
        _ if advance >= size || (2 * advance >= size && is_narrow(character)) => Drawn::InMiddle,
        _ if is_square(character) => Drawn::Smaller,
        _ => Drawn::Condensed,
    }
}

/// Whether a character's shape takes no more than about half of its square. A mark takes none of it.
fn is_narrow(character: char) -> bool {
    NARROW.contains(character) || columns(character) == 0
}

/// Whether a character is a figure that must not be squeezed: a circled number, an arrow, a sign.
fn is_square(character: char) -> bool {
    matches!(character, '±' | '×' | '÷' | '⁂' | '⁑' | '\u{2190}'..='\u{2BFF}' | '\u{3200}'..='\u{33FF}')
}

#[cfg(test)]
mod tests {
    use super::*;

    #[test]
    fn shapes_stand_in_the_room_of_their_records() {
        for (character, class, advance, expected) in [
            ('漢', 19, 80, Drawn::FromStart { before: 0 }),
            ('「', 1, 40, Drawn::FromStart { before: 40 }),
            ('」', 2, 40, Drawn::FromStart { before: 0 }),
            ('・', 5, 40, Drawn::FromStart { before: 20 }),
            ('、', 7, 40, Drawn::FromStart { before: 0 }),
            ('(', 1, 40, Drawn::InMiddle),
            ('(', 27, 40, Drawn::InMiddle),
            ('5', 27, 40, Drawn::InMiddle),
            ('5', 27, 80, Drawn::InMiddle),
            ('5', 27, 20, Drawn::Condensed),
            ('m', 27, 40, Drawn::Condensed),
            ('m', 27, 80, Drawn::InMiddle),
            ('W', 27, 160, Drawn::InMiddle),
            ('ł', 27, 40, Drawn::InMiddle),
            ('\u{301}', 27, 40, Drawn::InMiddle),
            ('ñ', 27, 40, Drawn::Condensed),
            ('〜', 3, 40, Drawn::Condensed),
            ('〜', 3, 80, Drawn::FromStart { before: 0 }),
            ('①', 27, 40, Drawn::Smaller),
            ('→', 27, 40, Drawn::Smaller),
            ('℃', 13, 80, Drawn::FromStart { before: 0 }),
        ] {
            let code_point = character.into();
            let record = Record { code_point, class, size: 80, advance, group: 0, ruby_count: 0 };
            assert_eq!(drawn(&record), expected, "{character}, {class}, {advance}");
        }
    }
}
