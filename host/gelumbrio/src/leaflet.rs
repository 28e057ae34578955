//! Where an imported text has its first fault, for a person (document 02, request 05).

use std::error::Error;
use std::fmt;

use crate::class::class_of;
use crate::place::TextPlace;

/// Where the first fault of an imported text is, and what stands there.
///
/// The text before it is what some leaflet begins with, and no leaflet goes on so.
///
/// ```
/// use gelumbrio::{Clinic, Found, Refusal, Sheet, SlotNumber};
///
/// // It is looked for before all else: there is no such slot.
/// let Err(Refusal::Leaflet(fault)) = Sheet::new(1)?.import(Clinic(7), SlotNumber(1), 80, "食後<br>") else {
///     panic!("<br> is no tag of a leaflet");
/// };
/// assert_eq!((fault.offset, fault.line, fault.column), (6, 1, 3));
/// assert!(matches!(fault.found, Found::Tag(tag) if tag.as_bytes() == b"<br>"));
/// # Ok::<(), Refusal>(())
/// ```
#[derive(Debug, Clone, Copy, PartialEq, Eq, Hash)]
#[non_exhaustive]
pub struct LeafletFault {
    /// Its place in bytes; the text's length where the text ends too early.
    pub offset: usize,
    /// Its line, from 1. LF, CR LF and CR end a line.
    pub line: usize,
    /// Its column in characters, from 1.
    pub column: usize,
    /// What stands there.
    pub found: Found,
}

/// What stands where no leaflet has it. Written out, it says why it cannot stand there.
///
/// ```
/// use gelumbrio::Found;
///
/// assert_eq!(Found::Character('&').to_string(), "'&' may not stand in a leaflet");
/// assert_eq!(Found::End.to_string(), "the text ends here, inside a ruby element");
/// ```
#[derive(Debug, Clone, Copy, PartialEq, Eq, Hash)]
#[non_exhaustive]
pub enum Found {
    /// A character.
    Character(char),
    /// A tag, as far as it goes: up to its `>`, to another `<` or to the line's end.
    Tag(Excerpt),
    /// Bytes that are no well-formed UTF-8.
    IllFormed(Excerpt),
    /// The end of the text.
    End,
}

/// The first bytes of what stands somewhere in a text.
///
/// ```
/// use gelumbrio::{Clinic, Excerpt, Found, Refusal, Sheet, SlotNumber};
///
/// let text = format!("<ruby class={}>", "a".repeat(100));
/// let refusal = Sheet::new(1)?.import(Clinic(7), SlotNumber(0), 80, &text);
/// let Err(Refusal::Leaflet(fault)) = refusal else { panic!("tags have no attributes") };
/// let Found::Tag(excerpt) = fault.found else { panic!("a tag is at fault") };
/// assert_eq!(excerpt.as_bytes(), &text.as_bytes()[..Excerpt::MOST]);
/// assert!(excerpt.is_cut());
/// # Ok::<(), Refusal>(())
/// ```
#[derive(Clone, Copy, PartialEq, Eq, Hash)]
pub struct Excerpt {
    bytes: [u8; Excerpt::MOST],
    length: u8,
    is_cut: bool,
}

/// The tags that a leaflet may have.
const TAGS: [&[u8]; 6] = [b"<ruby>", b"</ruby>", b"<rt>", b"</rt>", b"<rp>", b"</rp>"];

impl Excerpt {
    /// The most bytes that it holds.
    pub const MOST: usize = 32;

    /// The first of these bytes, whole characters where they are text.
    fn new(found: &[u8]) -> Excerpt {
        let mut length = found.len().min(Excerpt::MOST);
        // No character is cut in two: its later bytes go with its first.
        while length < found.len() && length > 0 && is_later_byte(found[length]) {
            length -= 1;
        }
        let mut bytes = [0; Excerpt::MOST];
        bytes[..length].copy_from_slice(&found[..length]);
        Excerpt { bytes, length: length as u8, is_cut: length < found.len() }
    }

    /// The bytes that it holds.
    ///
    /// ```
    /// use gelumbrio::{Clinic, Found, Refusal, Sheet, SlotNumber};
    ///
    /// let refusal = Sheet::new(1)?.import(Clinic(7), SlotNumber(0), 80, b"1\xE3\x81");
    /// let Err(Refusal::Leaflet(fault)) = refusal else { panic!("the text is cut short") };
    /// assert!(matches!(fault.found, Found::IllFormed(bytes) if bytes.as_bytes() == b"\xE3\x81"));
    /// # Ok::<(), Refusal>(())
    /// ```
    pub fn as_bytes(&self) -> &[u8] {
        &self.bytes[..usize::from(self.length)]
    }

    /// Whether there is more than it holds.
    ///
    /// ```
    /// use gelumbrio::{Clinic, Found, Refusal, Sheet, SlotNumber};
    ///
    /// let refusal = Sheet::new(1)?.import(Clinic(7), SlotNumber(0), 80, "食後<br>に");
    /// let Err(Refusal::Leaflet(fault)) = refusal else { panic!("<br> is no tag of a leaflet") };
    /// assert!(matches!(fault.found, Found::Tag(tag) if !tag.is_cut()));
    /// # Ok::<(), Refusal>(())
    /// ```
    pub fn is_cut(&self) -> bool {
        self.is_cut
    }

    /// The bytes in hexadecimal.
    fn in_hex(&self) -> String {
        self.as_bytes().iter().map(|byte| format!("{byte:02X}")).collect::<Vec<_>>().join(" ")
    }
}

/// As text, in which controls are written out.
impl fmt::Display for Excerpt {
    fn fmt(&self, f: &mut fmt::Formatter<'_>) -> fmt::Result {
        for character in String::from_utf8_lossy(self.as_bytes()).chars() {
            match character.is_control() {
                true => write!(f, "{}", character.escape_default())?,
                false => write!(f, "{character}")?,
            }
        }
        f.write_str(if self.is_cut { "…" } else { "" })
    }
}

impl fmt::Debug for Excerpt {
    fn fmt(&self, f: &mut fmt::Formatter<'_>) -> fmt::Result {
        write!(f, "Excerpt(\"{}\"{})", self.as_bytes().escape_ascii(), if self.is_cut { ", cut" } else { "" })
    }
}

impl LeafletFault {
    /// The fault at this byte of a text, or at its end where there is no such byte.
    pub(crate) fn at(text: &[u8], offset: usize) -> LeafletFault {
        let TextPlace { line, column, .. } = TextPlace::of(text, offset);
        LeafletFault { offset, line, column, found: Found::first_of(&text[offset.min(text.len())..]) }
    }
}

impl Found {
    /// What this text starts with.
    fn first_of(text: &[u8]) -> Found {
        match text.first() {
            None => Found::End,
            Some(b'<') => Found::Tag(Excerpt::new(tag(text))),
            Some(_) => match first_character(text) {
                Some(character) => Found::Character(character),
                None => Found::IllFormed(Excerpt::new(ill_formed(text))),
            },
        }
    }
}

/// The first character, unless the text starts with bytes that are none.
fn first_character(text: &[u8]) -> Option<char> {
    // No character takes more than four bytes.
    let start = &text[..text.len().min(4)];
    start.utf8_chunks().next()?.valid().chars().next()
}

/// The tag with which a text starts, as far as it goes.
fn tag(text: &[u8]) -> &[u8] {
    let well_formed = text.utf8_chunks().next().map_or(0, |chunk| chunk.valid().len());
    let text = &text[..well_formed];
    let ends = |&byte: &u8| matches!(byte, b'<' | b'>' | b'\n' | b'\r');
    match text.iter().skip(1).position(ends).map(|at| at + 1) {
        Some(at) if text[at] == b'>' => &text[..=at],
        Some(at) => &text[..at],
        None => text,
    }
}

/// The first byte with which an ill-formed text starts, and those after it that can only be later bytes of a
/// character.
fn ill_formed(text: &[u8]) -> &[u8] {
    let later = text.iter().take(4).skip(1).take_while(|&&byte| is_later_byte(byte));
    let length = 1 + if is_later_byte(text[0]) { 0 } else { later.count() };
    &text[..length]
}

/// Whether this byte can only be the second, third or fourth of a character.
fn is_later_byte(byte: u8) -> bool {
    matches!(byte, 0x80..=0xBF)
}

impl fmt::Display for LeafletFault {
    fn fmt(&self, f: &mut fmt::Formatter<'_>) -> fmt::Result {
        let LeafletFault { offset, line, column, found } = self;
        write!(f, "line {line}, column {column} of the leaflet (byte {offset}): {found}")
    }
}

impl Error for LeafletFault {}

/// Why it cannot stand there.
impl fmt::Display for Found {
    fn fmt(&self, f: &mut fmt::Formatter<'_>) -> fmt::Result {
        match self {
            Found::Character('>') => f.write_str("'>' may stand in a tag only"),
            Found::Character('&') => f.write_str("'&' may not stand in a leaflet"),
            Found::Character(character) => {
                write!(f, "{character:?} (U+{:04X}) may not stand here", u32::from(*character))?;
                f.write_str(if class_of(*character).is_none() {
                    ", as it is in no published list"
                } else {
                    ""
                })
            }
            Found::Tag(tag) if TAGS.contains(&tag.as_bytes()) => write!(f, "{tag} may not stand here"),
            Found::Tag(tag) => {
                write!(
                    f,
                    "{tag} is none of the tags of a leaflet, which are <ruby>, <rt>, <rp> and their end tags"
                )
            }
            Found::IllFormed(bytes) => write!(f, "the bytes {} are no UTF-8", bytes.in_hex()),
            Found::End => f.write_str("the text ends here, inside a ruby element"),
        }
    }
}
