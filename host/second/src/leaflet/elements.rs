//! The elements of a text: its characters and tags, up to the first that no accepted text has anywhere.

use super::well_formed::first_character;

/// One of the six tags.
#[derive(Debug, Clone, Copy, PartialEq, Eq)]
pub enum Tag {
    /// `<ruby>`
    Ruby,
    /// `</ruby>`
    RubyEnd,
    /// `<rt>`
    Rt,
    /// `</rt>`
    RtEnd,
    /// `<rp>`
    Rp,
    /// `</rp>`
    RpEnd,
}

/// The tags as they are written.
const TAGS: [(&[u8], Tag); 6] = [
    (b"<ruby>", Tag::Ruby),
    (b"</ruby>", Tag::RubyEnd),
    (b"<rt>", Tag::Rt),
    (b"</rt>", Tag::RtEnd),
    (b"<rp>", Tag::Rp),
    (b"</rp>", Tag::RpEnd),
];

/// A character, a tag, or what is neither.
#[derive(Debug, Clone, Copy, PartialEq, Eq)]
pub enum Element {
    /// A character other than `<`.
    Character(char),
    /// One of the six tags.
    Tag(Tag),
    /// A `<` that starts none of the six, or bytes that start no well-formed sequence.
    Neither,
}

/// A text's elements. Only the last can be `Neither`: what comes after such a one does not matter, as no accepted text
/// has it.
#[derive(Debug, Clone)]
pub struct Elements {
    /// The elements in order.
    pub elements: Vec<Element>,
    /// The byte at which each starts, and at last the text's length.
    pub starts: Vec<usize>,
}

/// Takes a text apart.
pub fn elements(text: &[u8]) -> Elements {
    let (mut elements, mut starts) = (Vec::new(), Vec::new());
    let mut rest = text;
    while !rest.is_empty() {
        let (element, length) = first_element(rest);
        elements.push(element);
        starts.push(text.len() - rest.len());
        rest = if element == Element::Neither { &[] } else { &rest[length..] };
    }
    starts.push(text.len());
    Elements { elements, starts }
}

/// The element with which a text starts that is not empty, and how many bytes it takes.
fn first_element(text: &[u8]) -> (Element, usize) {
    if text[0] == b'<' {
        let tag = TAGS.iter().find(|(written, _)| text.starts_with(written));
        return tag.map_or((Element::Neither, 1), |(written, tag)| (Element::Tag(*tag), written.len()));
    }
    let character = first_character(text);
    character.map_or((Element::Neither, 1), |(character, length)| (Element::Character(character), length))
}

impl Element {
    /// The character that it is, if it is one.
    pub fn character(&self) -> Option<char> {
        match self {
            Element::Character(character) => Some(*character),
            _ => None,
        }
    }
}
