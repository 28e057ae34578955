//! What a character takes in a terminal, and which characters may be put there.

/// Stands for what cannot be shown.
pub const REPLACEMENT: char = '\u{FFFD}';

/// The blocks whose characters are of East Asian width W or F (UAX 11). Of emoji the main blocks are here; a leaflet
/// has none outside its rt and rp.
const WIDE: [(u32, u32); 20] = [
    (0x1100, 0x115F),
    (0x2329, 0x232A),
    (0x2E80, 0x303E),
    (0x3041, 0x33FF),
    (0x3400, 0x4DBF),
    (0x4E00, 0xA4CF),
    (0xA960, 0xA97F),
    (0xAC00, 0xD7A3),
    (0xF900, 0xFAFF),
    (0xFE10, 0xFE19),
    (0xFE30, 0xFE6F),
    (0xFF01, 0xFF60),
    (0xFFE0, 0xFFE6),
    (0x16FE0, 0x18CFF),
    (0x1AFF0, 0x1B2FF),
    (0x1F300, 0x1F64F),
    (0x1F680, 0x1F6FF),
    (0x1F900, 0x1F9FF),
    (0x20000, 0x2FFFD),
    (0x30000, 0x3FFFD),
];

/// Marks that stand over, under or in the character before them.
const COMBINING: [(u32, u32); 9] = [
    (0x0300, 0x036F),
    (0x0483, 0x0489),
    (0x1AB0, 0x1AFF),
    (0x1DC0, 0x1DFF),
    (0x20D0, 0x20FF),
    (0x3099, 0x309A),
    (0xFE00, 0xFE0F),
    (0xFE20, 0xFE2F),
    (0xE0100, 0xE01EF),
];

/// Characters without a shape that turn, hide or part what stands around them.
const FORMATTING: [(u32, u32); 8] = [
    (0x061C, 0x061C),
    (0x180E, 0x180E),
    (0x200B, 0x200F),
    (0x2028, 0x202E),
    (0x2060, 0x206F),
    (0xFEFF, 0xFEFF),
    (0xFFF9, 0xFFFB),
    (0xE0000, 0xE007F),
];

fn is_in(ranges: &[(u32, u32)], character: char) -> bool {
    let code = u32::from(character);
    ranges.iter().any(|&(first, last)| (first..=last).contains(&code))
}

/// Whether a character fills a square.
pub fn is_wide(character: char) -> bool {
    is_in(&WIDE, character) && !is_in(&COMBINING, character)
}

/// How many columns of a terminal a character takes. Those of ambiguous width take one.
pub fn columns(character: char) -> usize {
    match character {
        _ if is_in(&COMBINING, character) => 0,
        _ if is_wide(character) => 2,
        _ => 1,
    }
}

/// The character itself, or [`REPLACEMENT`] for one that would steer a terminal, turn the text around it or may not
/// stand in XML. A leaflet's rt and rp may have any of these.
pub fn printable(character: char) -> char {
    let is_noncharacter =
        u32::from(character) & 0xFFFE == 0xFFFE || ('\u{FDD0}'..='\u{FDEF}').contains(&character);
    match character.is_control() || is_noncharacter || is_in(&FORMATTING, character) {
        true => REPLACEMENT,
        false => character,
    }
}

/// A character as it is told of: itself, and its number.
pub fn named(character: char) -> String {
    format!("{:?} (U+{:04X})", character, u32::from(character))
}

#[cfg(test)]
mod tests {
    use super::*;

    #[test]
    fn widths_are_those_that_a_terminal_has() {
        for wide in "漢あア、。「」・ー〜　〇々㎎한（𠮟𰀀🍵".chars() {
            assert_eq!(columns(wide), 2, "{}", named(wide));
        }
        for narrow in "a0%.…—①℃°±αЖ│ｱ\u{FFFD}".chars() {
            assert_eq!(columns(narrow), 1, "{}", named(narrow));
        }
        for none in "\u{3099}\u{309A}\u{0301}\u{FE0F}".chars() {
            assert_eq!(columns(none), 0, "{}", named(none));
        }
    }

    #[test]
    fn what_steers_a_terminal_is_not_shown() {
        for hidden in
            "\u{1B}\u{7}\u{0}\n\t\u{7F}\u{9B}\u{202E}\u{2066}\u{200B}\u{FEFF}\u{FFF9}\u{FFFE}\u{FFFF}\u{E0041}".chars()
        {
            assert_eq!(printable(hidden), REPLACEMENT, "{}", named(hidden));
        }
        for shown in "漢a \u{3000}\u{3099}\u{FFFD}".chars() {
            assert_eq!(printable(shown), shown);
        }
    }
}
