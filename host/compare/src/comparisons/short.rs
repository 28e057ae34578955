//! All short paragraphs over small alphabets, at every measure from 8, the least there is, up to
//! where they fit on one line.

use crate::calls::Words;
use crate::failure::Failure;
use crate::generate::{all_texts, plain};
use crate::layout::{CLASSES, LINES};
use crate::one_slot::OneSlot;
use crate::program::Program;
use crate::scope::Scope;
use crate::tally::Tally;

const TEST: &str = "short";
const SIZE: u32 = 8;
const LEAST_MEASURE: u32 = 8;

/// Compares all short paragraphs.
pub fn compare(program: &dyn Program, scope: Scope) -> Result<Tally, Failure> {
    let mut slot = OneSlot::new(TEST, None, program);
    // What shrinks, what stretches and what does neither.
    let punctuation = [1, 2, 5, 6, 7, 19, 27].map(|class| plain(class, SIZE));
    all(&mut slot, &punctuation, scope.choose(6, 3), 0)?;
    all(&mut slot, &punctuation, scope.choose(5, 2), 5)?;
    // What holds together: equal and unequal dashes, prefixes and suffixes, Western in two widths, a digit.
    let dash = |code_point| [code_point, 8, SIZE, SIZE, 0, 0];
    let western = [0x41, 27, SIZE, 5, 0, 0];
    let digit = [0x35, 27, SIZE, 4, 0, 0];
    let held = [
        dash(0x2014),
        dash(0x2025),
        plain(12, SIZE),
        plain(13, SIZE),
        plain(14, SIZE),
        plain(27, SIZE),
        western,
        digit,
    ];
    all(&mut slot, &held, scope.choose(4, 2), 0)?;
    // Groups that join with their neighbours or do not, and larger sizes.
    let grouped = |size, group, ruby_count| [0x6F22, 19, size, size, group, ruby_count];
    let groups = [
        grouped(SIZE, 1, 1),
        grouped(SIZE, 1, 5),
        grouped(SIZE, 2, 5),
        grouped(16, 1, 1),
        plain(19, 16),
        plain(7, 16),
    ];
    all(&mut slot, &groups, scope.choose(4, 2), 3)?;
    let every_class = CLASSES.map(|class| plain(class, SIZE));
    all(&mut slot, &every_class, scope.choose(3, 2), 0)?;
    Ok(slot.tally)
}

/// A paragraph and its natural width.
struct Paragraph {
    words: Vec<u32>,
    width: u32,
}

/// All paragraphs of up to this many records, at every measure.
fn all(slot: &mut OneSlot, alphabet: &[Words], longest: u32, indent: u32) -> Result<(), Failure> {
    let paragraphs = paragraphs(alphabet, longest);
    let last_measure = |paragraph: &Paragraph| LEAST_MEASURE.max(paragraph.width + indent);
    let last = paragraphs.iter().map(last_measure).max().unwrap_or(LEAST_MEASURE);
    for measure in LEAST_MEASURE..=last {
        slot.set_up(measure, indent)?;
        for paragraph in paragraphs.iter().filter(|paragraph| measure <= last_measure(paragraph)) {
            slot.replace(&paragraph.words)?;
        }
    }
    Ok(())
}

fn paragraphs(alphabet: &[Words], longest: u32) -> Vec<Paragraph> {
    let all = all_texts(alphabet, longest).into_iter();
    all.map(|words| Paragraph { width: natural_width(&words), words }).collect()
}

/// The end of the only line in the widest measure. A paragraph that breaks a group rule has no
/// lines; its answer 9 is tried at as many measures as a text of its length.
fn natural_width(words: &[u32]) -> u32 {
    match second::slot_words(1, 1_000_000, 0, words) {
        Ok(slot) => slot[LINES + 1],
        Err(_) => SIZE * words.len() as u32 / 6,
    }
}
