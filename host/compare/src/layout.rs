//! The layout of a sheet (document 01, "The sheet"), written down apart from both programs.

/// The words of a slot.
pub const SLOT: usize = 2_824;
/// Where in a slot the in-use word is.
pub const IN_USE: usize = 5;
/// Where in a slot the records start.
pub const RECORDS: usize = 8;
/// Where in a slot the places start.
pub const PLACES: usize = 1_544;
/// Where in a slot the lines start.
pub const LINES: usize = 2_056;

/// The largest measure that a slot may have.
pub const LARGEST_MEASURE: u32 = 1_000_000;

/// The eighteen classes.
pub const CLASSES: [u32; 18] = [1, 2, 3, 4, 5, 6, 7, 8, 9, 10, 11, 12, 13, 14, 15, 16, 19, 27];

/// The words of a slot, if the sheet has it.
pub fn slot_words(sheet: &[u32], slot: u32) -> Option<&[u32]> {
    sheet.chunks_exact(SLOT).nth(slot as usize)
}

/// The words of the records that a slot says it holds.
pub fn record_words(slot: &[u32]) -> &[u32] {
    let most = (PLACES - RECORDS) / 6;
    &slot[RECORDS..][..6 * most.min(slot[3] as usize)]
}

/// The first record of each line that a slot says it has.
pub fn line_starts(slot: &[u32]) -> Vec<u32> {
    slot[LINES..].chunks(3).take(slot[4] as usize).map(|line| line[0]).collect()
}

/// Which word of a sheet this is, for a person.
pub fn name(at: usize) -> String {
    let (slot, word) = (at / SLOT, at % SLOT);
    const HEAD: [&str; 8] =
        ["clinic", "measure", "indent", "record count", "line count", "in use", "zero", "zero"];
    const RECORD: [&str; 6] = ["code point", "class", "size", "advance", "group", "ruby count"];
    const PLACE: [&str; 2] = ["x", "line number"];
    const LINE: [&str; 3] = ["first record", "end x", "kind"];
    let part = match word {
        0..RECORDS => HEAD[word].to_string(),
        RECORDS..PLACES => item("record", word - RECORDS, &RECORD),
        PLACES..LINES => item("place", word - PLACES, &PLACE),
        _ => item("line", word - LINES, &LINE),
    };
    format!("word {at} (slot {slot}, {part})")
}

fn item(name: &str, word: usize, fields: &[&str]) -> String {
    format!("{name} {}: {}", word / fields.len(), fields[word % fields.len()])
}
