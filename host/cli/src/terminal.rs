//! A paragraph's lines for a terminal, where a wide character takes two columns.
//!
//! A column is half a character, so solid text is solid. A half-width bracket or point is still two columns wide
//! there, and lies over the space that the rules set beside it. Where they set none, the rest of the line moves to the
//! right. Ruby characters are as large as others, so ruby stands over where its base starts, and in a row above where
//! it would run into other ruby.

use gelumbrio::{Class, Line};

use crate::characters::{columns, printable, REPLACEMENT};
use crate::glyph::leading;
use crate::paragraph::Paragraph;
use crate::style::Style;

/// Stands for a ruby character of which it is not known which it is.
const SOME_RUBY: char = '*';
/// Shows a gap, where marks are wanted. One that a half-width mark lies over, or that is less than half a column, is
/// not seen.
const GAP: char = '_';
/// The columns before x 0: an opening bracket at a line's start has its empty half there.
const MARGIN: i64 = 1;

/// A row of characters in columns.
#[derive(Debug, Default)]
struct Row {
    text: String,
    width: usize,
}

impl Row {
    /// Puts a character at a column, or after what is there; says where it stands.
    fn put(&mut self, column: i64, character: char, filling: char) -> usize {
        let character = printable(character);
        while (self.width as i64) < column {
            self.text.push(filling);
            self.width += 1;
        }
        let at = self.width;
        self.text.push(character);
        self.width += columns(character);
        at
    }
}

/// All lines of a paragraph, as text.
pub fn lines(paragraph: &Paragraph, marks: bool, style: Style) -> String {
    let column = paragraph.sizes().map_or(1, |(smallest, _)| smallest / 2);
    let mut text = String::new();
    for (number, line) in paragraph.lines.iter().enumerate() {
        let (base, at) = base_row(paragraph, line, column, marks);
        let label = if marks { format!("{number:>3} ") } else { String::new() };
        for ruby in ruby_rows(paragraph, line, column, &at).iter().rev() {
            text.push_str(&format!("{}{}\n", " ".repeat(label.len()), ruby.text));
        }
        text.push_str(&style.faint(&label));
        text.push_str(base.text.trim_end_matches(' '));
        if marks {
            text.push_str(&style.faint(&format!("  {}, record {}", line.kind, line.first_record)));
        }
        text.push('\n');
    }
    text
}

/// A line's characters, and the column in which each stands.
fn base_row(paragraph: &Paragraph, line: &Line, column: u32, marks: bool) -> (Row, Vec<usize>) {
    let mut row = Row::default();
    let mut at = Vec::new();
    let mut was_number = false;
    let gaps = if marks { after_gaps(paragraph, line) } else { Vec::new() };
    for (index, &x) in paragraph.records_of(line).zip(&line.xs) {
        let record = &paragraph.records[index];
        let character = record.character().unwrap_or(REPLACEMENT);
        let filling = if gaps.contains(&index) { GAP } else { ' ' };
        let start = i64::from(x) - i64::from(leading(record));
        let is_number = record.class == Class::Western.number() && character.is_alphanumeric();
        // The space around a number, or a word, is less than a column. All of it is put before, so that a dose is read
        // with its unit.
        let start = match (was_number, is_number) {
            (false, true) => -(-start).div_euclid(column.into()),
            (true, false) => start.div_euclid(column.into()),
            _ => nearest(start, column),
        };
        at.push(row.put(MARGIN + start, character, filling));
        was_number = is_number;
    }
    (row, at)
}

/// The records of a line before which a gap is set.
fn after_gaps(paragraph: &Paragraph, line: &Line) -> Vec<usize> {
    let units = paragraph.units_of(line);
    units.windows(2).filter(|pair| pair[0].end < pair[1].x).map(|pair| pair[1].first).collect()
}

/// The rows of ruby over a line, the lowest first.
fn ruby_rows(paragraph: &Paragraph, line: &Line, column: u32, at: &[usize]) -> Vec<Row> {
    let mut rows: Vec<Row> = Vec::new();
    let first = line.first_record as usize;
    for group in paragraph.groups_of(line) {
        let index = group.first - first;
        // As far from the first of its base as it is there, which may have been moved.
        let moved = at[index] as i64 - nearest(line.xs[index].into(), column);
        let start = moved + nearest(group.x.into(), column);
        let is_free = |row: &Row| row.width == 0 || (row.width as i64) < start;
        let level = rows.iter().position(is_free).unwrap_or(rows.len());
        if level == rows.len() {
            rows.push(Row::default());
        }
        for (k, &ruby_x) in group.ruby_xs.iter().enumerate() {
            let character = group.ruby.as_ref().map_or(SOME_RUBY, |ruby| ruby[k]);
            rows[level].put(moved + nearest(ruby_x.into(), column), character, ' ');
        }
    }
    rows
}

/// How many columns this is, to the nearest one.
fn nearest(units: i64, column: u32) -> i64 {
    (2 * units + i64::from(column)).div_euclid(2 * i64::from(column))
}
