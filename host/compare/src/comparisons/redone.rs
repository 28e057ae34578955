//! How many lines an edit reports as composed anew, and that the others stay as they were (document 02,
//! request 03): all small edits of small texts, edits of long texts about where lines and groups start,
//! and edits of slots whose stored lines are not those of their records.

use crate::calls::{Call, Case, Words};
use crate::failure::Failure;
use crate::generate::{all_texts, plain, Style, EDGES};
use crate::layout::{line_starts, record_words, LARGEST_MEASURE, LINES, PLACES, SLOT};
use crate::one_slot::OneSlot;
use crate::program::Program;
use crate::random::{seeds, Random};
use crate::run::run;
use crate::scope::Scope;
use crate::tally::Tally;

const TEST: &str = "redone";
const CLINIC: u32 = 7;
/// The size of small texts.
const SIZE: u32 = 8;
/// How many edits are made of one long text.
const EDITS: u32 = 6;

/// Compares small edits, edits of long texts, then those of slots with other lines stored.
pub fn compare(program: &dyn Program, scope: Scope) -> Result<Tally, Failure> {
    let mut tally = small(program, scope)?;
    for seed in seeds(TEST, scope, 8_000, 400) {
        tally.add(&long(program, seed)?);
        let case = with_other_lines_stored(seed);
        let seen = run(program, &case).map_err(|_| Failure::new(TEST, Some(seed), program, &case))?;
        tally.add(&seen);
    }
    Ok(tally)
}

/// Makes an edit, and where it changes the text the one that undoes it.
fn there_and_back(slot: &mut OneSlot, place: u32, deleted: u32, inserted: &[u32]) -> Result<(), Failure> {
    let text = slot.records().to_vec();
    slot.edit(place, deleted, inserted)?;
    if slot.records() != text {
        slot.edit(place, inserted.len() as u32 / 6, stretch(&text, place, deleted))?;
    }
    Ok(())
}

/// So many records of a text from this one on, or those that there are.
fn stretch(text: &[u32], from: u32, count: u32) -> &[u32] {
    let records = &text[6 * from as usize..];
    &records[..records.len().min(6 * count as usize)]
}

/// All small edits of all small texts: ideographs in two sizes, with what may start no line, what may
/// end none, and what joins its like across the place.
fn small(program: &dyn Program, scope: Scope) -> Result<Tally, Failure> {
    let [k, full_stop, opening] = [19, 6, 1].map(|class| plain(class, SIZE));
    let grouped = |ruby_count| [0x6F22, 19, SIZE, SIZE, 1, ruby_count];
    let mut slot = OneSlot::new(TEST, None, program);
    all_small(&mut slot, &[k], scope.choose(12, 6), 4, 0)?;
    all_small(&mut slot, &[k, full_stop], scope.choose(6, 4), 2, 0)?;
    all_small(&mut slot, &[k, opening, plain(19, 2 * SIZE)], scope.choose(5, 3), 1, 0)?;
    all_small(&mut slot, &[k, grouped(1), grouped(2)], scope.choose(4, 3), 2, 5)?;
    Ok(slot.tally)
}

/// All edits that insert up to `inserting` records, of all texts of up to `longest`.
fn all_small(
    slot: &mut OneSlot,
    alphabet: &[Words],
    longest: u32,
    inserting: u32,
    indent: u32,
) -> Result<(), Failure> {
    let (texts, insertions) = (all_texts(alphabet, longest), all_texts(alphabet, inserting));
    // From one record on a line to four.
    for measure in (SIZE..=4 * SIZE).step_by(SIZE as usize / 2) {
        slot.set_up(measure, indent)?;
        for text in &texts {
            slot.replace(text)?;
            if slot.records() != text {
                continue;
            }
            let count = text.len() as u32 / 6;
            for (place, end) in (0..=count).flat_map(|place| (place..=count).map(move |end| (place, end))) {
                for inserted in &insertions {
                    there_and_back(slot, place, end - place, inserted)?;
                }
            }
        }
    }
    Ok(())
}

/// Edits of one long text.
fn long(program: &dyn Program, seed: u64) -> Result<Tally, Failure> {
    let mut random = Random::new(seed);
    let style = Style::random(&mut random);
    let mut slot = OneSlot::new(TEST, Some(seed), program);
    let (measure, indent, text) = long_text(&mut random, &style);
    slot.set_up(measure, indent)?;
    slot.replace(&text)?;
    for _ in 0..EDITS {
        let Change { place, deleted, inserted } = Change::of(&mut random, &style, slot.words());
        there_and_back(&mut slot, place, deleted, &inserted)?;
    }
    Ok(slot.tally)
}

/// A measure, an indent and a text which can be composed in them, unless it breaks a group rule.
fn long_text(random: &mut Random, style: &Style) -> (u32, u32, Vec<u32>) {
    let most = random.one_of(&[12, 60, 250, 256]);
    let count = random.between(most / 2, most);
    let text = style.paragraph(random, count);
    let mut measure = style.measure(random);
    let mut indent = style.indent(random, measure);
    let is_narrow = |measure, indent| {
        second::slot_words(CLINIC, measure, indent, &text).is_err_and(|answer| answer.number == 10)
    };
    while is_narrow(measure, indent) && measure <= LARGEST_MEASURE / 2 {
        (measure, indent) = (2 * measure, indent / 2);
    }
    (measure, indent, text)
}

/// An edit of the slot in question.
struct Change {
    place: u32,
    deleted: u32,
    inserted: Vec<u32>,
}

impl Change {
    /// An edit of a slot that holds these words, mostly about where a line or a group starts or ends.
    fn of(random: &mut Random, style: &Style, slot: &[u32]) -> Change {
        let text = record_words(slot);
        let count = text.len() as u32 / 6;
        // With the end, where a line ends.
        let starts = [line_starts(slot), vec![count]].concat();
        let start = random.one_of(&starts);
        let place = match random.below(8) {
            0 => 0,
            1 => count,
            2 => start.saturating_sub(1),
            3 => (start + 1).min(count),
            4 => random.one_of(&group_bounds(text)),
            5 => random.below(count + 1),
            _ => start,
        };
        let deleted = match random.below(6) {
            0 | 1 => 0,
            2 => 1,
            // Up to where a line starts, which may be several lines on.
            3 => random.one_of(&starts).saturating_sub(place),
            4 => random.below(count - place + 1),
            _ => random.below(5),
        };
        let deleted = deleted.min(count - place);
        Change { place, deleted, inserted: insertion(random, style, text, stretch(text, place, deleted)) }
    }
}

/// Where a group starts or ends within the text, and 0.
fn group_bounds(text: &[u32]) -> Vec<u32> {
    let (records, _) = text.as_chunks::<6>();
    let pairs = (1..).zip(records.windows(2));
    let bounds = pairs.filter(|(_, pair)| pair[0][4] != pair[1][4]).map(|(at, _)| at);
    std::iter::once(0).chain(bounds).collect()
}

/// Records to put into a text in place of these of it.
fn insertion(random: &mut Random, style: &Style, text: &[u32], deleted: &[u32]) -> Vec<u32> {
    let few = random.between(1, 4);
    match random.below(8) {
        0 => Vec::new(),
        1 => deleted.to_vec(),
        2 => [deleted, &plain(19, SIZE)].concat(),
        3 => deleted[..deleted.len().saturating_sub(6)].to_vec(),
        // So small that its line may have room for it.
        4 => plain(19, SIZE).to_vec(),
        5 => stretch(text, random.below(text.len() as u32 / 6 + 1), few).to_vec(),
        6 => {
            let many = random.between(1, 60);
            style.paragraph(random, many)
        }
        _ => style.paragraph(random, few),
    }
}

/// An edit of a slot whose records are sound, and whose stored lines are not those that the rules give
/// them: lines or places were written over, or the measure, the indent or the record count since.
fn with_other_lines_stored(seed: u64) -> Case {
    let mut random = Random::new(seed);
    let style = Style::random(&mut random);
    let (measure, indent, mut text) = long_text(&mut random, &style);
    let mut calls = Call::one_slot(CLINIC, measure, indent).to_vec();
    calls.push(Call::replace(CLINIC, 0, &text));

    let mut head = [CLINIC, measure, indent, text.len() as u32 / 6];
    match random.below(30) {
        0..5 => head[1] = random.between(measure / 2 + indent + 1, 2 * measure).min(LARGEST_MEASURE),
        5..10 => head[2] = style.indent(&mut random, measure),
        10..15 => head[3] = random.below(head[3] + 1),
        15 => calls.extend([4].into_iter().chain(PLACES..SLOT).map(|at| written_over(&mut random, at))),
        _ => calls.extend((0..random.between(1, 12)).map(|_| other_line_word(&mut random))),
    }
    calls.extend((1..4).map(|at| Call::Damage { at, word: head[at] }));
    text.truncate(6 * head[3] as usize);

    let lines = second::slot_words(CLINIC, head[1], head[2], &text);
    let slot = lines.unwrap_or_else(|_| vec![0; SLOT]);
    let Change { place, deleted, inserted } = Change::of(&mut random, &style, &slot);
    calls.push(Call::Edit { caller: CLINIC, slot: 0, place, deleted, inserted });
    Case { length: SLOT, junk: None, calls }
}

/// Writes over the line count, the line of some record or a word of some line.
fn other_line_word(random: &mut Random) -> Call {
    let at = match random.below(4) {
        0 => 4,
        1 => PLACES + 2 * random.below(256) as usize + 1,
        2 => LINES + 3 * random.below(12) as usize,
        _ => LINES + random.below(768) as usize,
    };
    written_over(random, at)
}

/// Writes over a word, mostly with a number that a line or a record may have.
fn written_over(random: &mut Random, at: usize) -> Call {
    let word = if random.once_in(3) { random.one_of(&EDGES) } else { random.below(40) };
    Call::Damage { at, word }
}
