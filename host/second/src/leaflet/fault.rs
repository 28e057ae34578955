//! Where a refused text has its first fault (document 02, request 05).
//!
//! A beginning is what some accepted text begins with, counted in elements. The first fault is the element after the
//! longest of a text's beginnings, or the text's end.

use super::elements::{Element, Elements, Tag};
use super::grammar::accepts;

const CHARACTER: Element = Element::Character('あ');

/// Two accepted texts. Wherever in the grammar a beginning stops, the rest of one of them completes it: the first
/// where no rp has been met, the second where one has.
const COMPLETE: [&[Element]; 2] = [
    &[
        Element::Tag(Tag::Ruby),
        CHARACTER,
        Element::Tag(Tag::Rt),
        CHARACTER,
        Element::Tag(Tag::RtEnd),
        Element::Tag(Tag::RubyEnd),
    ],
    &[
        Element::Tag(Tag::Ruby),
        CHARACTER,
        Element::Tag(Tag::Rp),
        Element::Tag(Tag::RpEnd),
        Element::Tag(Tag::Rt),
        CHARACTER,
        Element::Tag(Tag::RtEnd),
        Element::Tag(Tag::Rp),
        Element::Tag(Tag::RpEnd),
        Element::Tag(Tag::RubyEnd),
    ],
];

/// The byte at which the first fault of a refused text starts.
///
/// What a beginning begins with is a beginning too, so that those of a text are the shorter ones, and the longest is
/// found by halving.
pub fn first_fault(text: &Elements) -> usize {
    let (mut longest, mut shortest_other) = (0, text.elements.len() + 1);
    while longest + 1 < shortest_other {
        let middle = longest.midpoint(shortest_other);
        if is_beginning(&text.elements[..middle]) {
            longest = middle;
        } else {
            shortest_other = middle;
        }
    }
    text.starts[longest]
}

/// Whether some accepted text begins with these elements.
pub fn is_beginning(elements: &[Element]) -> bool {
    let mut completed = elements.to_vec();
    let mut rests = COMPLETE.iter().flat_map(|text| (0..=text.len()).rev().map(|from| &text[from..]));
    rests.any(|rest| {
        completed.truncate(elements.len());
        completed.extend_from_slice(rest);
        accepts(&completed)
    })
}

#[cfg(test)]
mod tests {
    use super::*;

    const ALPHABET: [Element; 9] = [
        CHARACTER,
        // In no list, and nowhere.
        Element::Character(' '),
        Element::Character('&'),
        Element::Tag(Tag::Ruby),
        Element::Tag(Tag::RubyEnd),
        Element::Tag(Tag::Rt),
        Element::Tag(Tag::RtEnd),
        Element::Tag(Tag::Rp),
        Element::Tag(Tag::RpEnd),
    ];

    fn longer(text: &[Element]) -> [Vec<Element>; 9] {
        ALPHABET.map(|element| [text, &[element]].concat())
    }

    /// A text is a beginning where it is accepted or goes on as one, and never where what it begins with is none. The
    /// texts are all beginnings of up to ten elements, as many as the second of the complete texts has, and what they
    /// are with one more.
    #[test]
    fn beginnings_go_on_to_accepted_texts() {
        let mut beginnings: Vec<Vec<Element>> = vec![Vec::new()];
        let mut accepted = 0;
        for _ in 0..=COMPLETE[1].len() {
            assert!(beginnings.iter().all(|text| is_beginning(text)));
            accepted += beginnings.iter().filter(|text| accepts(text)).count();
            let texts: Vec<Vec<Element>> = beginnings.iter().flat_map(|text| longer(text)).collect();
            for text in &texts {
                let goes_on = longer(text).iter().any(|text| is_beginning(text));
                assert_eq!(is_beginning(text), accepts(text) || goes_on, "{text:?}");
            }
            beginnings = texts.into_iter().filter(|text| is_beginning(text)).collect();
        }
        println!("{accepted} accepted texts, {} beginnings of one element more", beginnings.len());
        assert!(accepted > 100);
    }

    /// What any accepted text begins with is a beginning.
    #[test]
    fn accepted_texts_begin_with_beginnings() {
        let mut texts: Vec<Vec<Element>> = vec![Vec::new()];
        for _ in 0..6 {
            texts = texts.iter().flat_map(|text| longer(text)).collect();
            for text in texts.iter().filter(|text| accepts(text)) {
                assert!((0..=text.len()).all(|length| is_beginning(&text[..length])), "{text:?}");
            }
        }
    }
}
