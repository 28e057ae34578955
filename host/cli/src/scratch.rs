//! Slots that are on nobody's sheet, to ask the library with.

use gelumbrio::limits::{MAX_RECORDS, MEASURES, SIZES, SIZE_STEP};
use gelumbrio::{Clinic, LeafletFault, Record, Refusal, Sheet, SlotNumber, SlotSettings};

use crate::leaflet::Reading;

/// Whose slots they are.
pub const CALLER: Clinic = Clinic(1);
/// The size of characters where none is named.
pub const USUAL_SIZE: u32 = 80;

/// Whether records can have this size.
pub fn is_size(size: u32) -> bool {
    SIZES.contains(&size) && size.is_multiple_of(SIZE_STEP)
}

/// A sheet of one slot, taken by [`CALLER`].
pub fn fresh(measure: u32, indent: u32) -> Result<(Sheet, SlotNumber), Refusal> {
    let mut sheet = Sheet::new(1)?;
    sheet.set_up(&[SlotSettings { clinic: CALLER, measure, indent }])?;
    let slot = sheet.take(CALLER)?;
    Ok((sheet, slot))
}

/// A slot of the widest lines that there are.
pub fn widest() -> (Sheet, SlotNumber) {
    fresh(*MEASURES.end(), 0).expect("a measure within limits")
}

/// Where a text is no leaflet, what is wrong with it. What else an import would be refused with is not asked.
pub fn leaflet_fault(text: &[u8]) -> Option<LeafletFault> {
    let (mut sheet, slot) = widest();
    match sheet.import(CALLER, slot, *SIZES.start(), text) {
        Err(Refusal::Leaflet(fault)) => Some(fault),
        _ => None,
    }
}

/// What a fresh slot says to these records.
pub fn try_records(measure: u32, indent: u32, records: &[Record]) -> Result<(), Refusal> {
    let (mut sheet, slot) = fresh(measure, indent)?;
    sheet.edit(CALLER, slot, .., records).map(|_edited| ())
}

/// The shortest measure in which these records can be broken into lines, if there is one.
pub fn least_measure(indent: u32, records: &[Record]) -> Option<u32> {
    let fits = |measure| try_records(measure, indent, records).is_ok();
    let (mut low, mut high) = (indent.saturating_add(1).max(*MEASURES.start()), *MEASURES.end());
    if low > high || !fits(high) {
        return None;
    }
    // What fits in a measure fits in every longer one.
    while low < high {
        let middle = low + (high - low) / 2;
        if fits(middle) {
            high = middle;
        } else {
            low = middle + 1;
        }
    }
    Some(high)
}

/// The records of an accepted leaflet, as an import makes them; of more than a slot takes, one more than it takes. Its
/// groups get the lowest numbers that are not among those taken: next to a group of the same number they would be one
/// with it.
pub fn records(reading: &Reading, size: u32, taken: &[Record]) -> Vec<Record> {
    let letters = reading.letters.iter().take(MAX_RECORDS + 1);
    let mut records: Vec<Record> = letters.map(|letter| record(letter.character, size)).collect();
    let mut free = (1..).filter(|number| taken.iter().all(|record| record.group != *number));
    for element in &reading.elements {
        let group = free.next().unwrap_or(0);
        for record in records.iter_mut().skip(element.first).take(element.length) {
            record.group = group;
            record.ruby_count = u32::try_from(element.ruby.len()).unwrap_or(u32::MAX);
        }
    }
    records
}

/// The record of a leaflet's character. In an accepted one each has a class; an edit refuses a record that has none.
fn record(character: char, size: u32) -> Record {
    let code_point = character.into();
    let of_no_class = Record { code_point, class: 0, size, advance: size, group: 0, ruby_count: 0 };
    Record::new(character, size).unwrap_or(of_no_class)
}

#[cfg(test)]
mod tests {
    use super::*;

    const TEXT: &str = "1回2錠を、<ruby>食後<rt>しょくご</rt></ruby>に「水」で。\
                        <ruby>薬<rp>(</rp><rt>くすり</rt><rp>)</rp></ruby>は5%〜℃・Wm";

    #[test]
    fn records_are_those_of_an_import() {
        for size in [8, 80, 4_000] {
            let (mut sheet, slot) = widest();
            sheet.import(CALLER, slot, size, TEXT).unwrap();
            let imported: Vec<Record> = sheet.slot(slot).unwrap().records().collect();
            assert_eq!(records(&Reading::of(TEXT.as_bytes()), size, &[]), imported);
        }
    }

    #[test]
    fn new_groups_have_numbers_of_their_own() {
        let taken = records(&Reading::of(TEXT.as_bytes()), 80, &[]);
        let numbers = |records: &[Record]| records.iter().map(|record| record.group).collect::<Vec<_>>();
        let text = "<ruby>朝<rt>あさ</rt></ruby>と<ruby>夕<rt>ゆう</rt></ruby>";
        assert_eq!(numbers(&records(&Reading::of(text.as_bytes()), 80, &taken)), [3, 0, 4]);
        assert_eq!(numbers(&records(&Reading::of(text.as_bytes()), 80, &taken[..8])), [2, 0, 3]);
    }

    #[test]
    fn the_shortest_measure_is_found() {
        let of = |text: &str| records(&Reading::of(text.as_bytes()), 80, &[]);
        // The indent and the first character; then three digits, which hold together.
        assert_eq!(least_measure(40, &of("錠123")), Some(120));
        assert_eq!(least_measure(0, &of("錠123456")), Some(240));
        assert_eq!(least_measure(0, &[]), Some(8));
        assert_eq!(least_measure(2_000_000, &[]), None);
    }
}
