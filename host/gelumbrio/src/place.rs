//! Where a byte of a text is, for a person.

/// A place in a text. LF, CR LF and CR end a line.
///
/// ```
/// use gelumbrio::TextPlace;
///
/// let place = TextPlace::of("食後に\r\n1回（朝）".as_bytes(), 15);
/// assert_eq!((place.line, place.column, place.text.as_str()), (2, 3, "1回（朝）"));
/// ```
#[derive(Debug, Clone, PartialEq, Eq)]
pub struct TextPlace {
    /// Its line, from 1.
    pub line: usize,
    /// Its column in characters, from 1.
    pub column: usize,
    /// The whole line, without its end. Bytes that are no UTF-8 stand there as U+FFFD.
    pub text: String,
}

impl TextPlace {
    /// The place of this byte of a text, or of its end where there is no such byte.
    ///
    /// ```
    /// use gelumbrio::TextPlace;
    ///
    /// let end = TextPlace { line: 1, column: 3, text: "食後".to_string() };
    /// assert_eq!(TextPlace::of("食後".as_bytes(), 100), end);
    /// ```
    pub fn of(text: &[u8], offset: usize) -> TextPlace {
        let (before, after) = text.split_at(offset.min(text.len()));
        let before = String::from_utf8_lossy(before).replace("\r\n", "\n");
        let mut starts = before.split(is_end);
        let (line, start) = (starts.clone().count(), starts.next_back().unwrap_or_default());
        let after = after.split(|&byte| is_end(byte.into())).next().unwrap_or_default();
        TextPlace {
            line,
            column: start.chars().count() + 1,
            text: format!("{start}{}", String::from_utf8_lossy(after)),
        }
    }
}

fn is_end(character: char) -> bool {
    matches!(character, '\n' | '\r')
}

#[cfg(test)]
mod tests {
    use super::*;

    #[test]
    fn a_place_has_a_line_and_a_column() {
        for (text, offset, line, column, shown) in [
            ("", 0, 1, 1, ""),
            ("食後", 3, 1, 2, "食後"),
            ("食後", 6, 1, 3, "食後"),
            ("食後", 7, 1, 3, "食後"),
            ("食\n後に\r\n薬", 7, 2, 2, "後に"),
            ("食\n後に\r\n薬", 12, 3, 1, "薬"),
            ("食\r後", 4, 2, 1, "後"),
            // A line's end is the last place of its line.
            ("食\n後", 3, 1, 2, "食"),
            ("食\r\n後", 3, 1, 2, "食"),
            ("食\n", 4, 2, 1, ""),
        ] {
            let place = TextPlace { line, column, text: shown.to_string() };
            assert_eq!(TextPlace::of(text.as_bytes(), offset), place, "{text:?}, {offset}");
        }
        assert_eq!(TextPlace::of(b"\xE9a\xFF", 2).text, "\u{FFFD}a\u{FFFD}");
    }
}
