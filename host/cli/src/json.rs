//! A paragraph as JSON, for other programs.

use std::fmt::Write;

use crate::paragraph::{Group, Paragraph};

/// Records, places, lines and ruby.
pub fn json(paragraph: &Paragraph) -> String {
    let records = paragraph.records.iter().map(|record| {
        format!(
            "{{\"character\": {}, \"code_point\": {}, \"class\": {}, \"size\": {}, \"advance\": {}, \"group\": {}, \
             \"ruby_count\": {}}}",
            string(record.character()),
            record.code_point,
            record.class,
            record.size,
            record.advance,
            record.group,
            record.ruby_count
        )
    });
    let places = paragraph.lines.iter().enumerate().flat_map(|(number, line)| {
        line.xs.iter().map(move |x| format!("{{\"x\": {x}, \"line\": {number}}}"))
    });
    let lines = paragraph.lines.iter().map(|line| {
        format!(
            "{{\"first_record\": {}, \"end_x\": {}, \"kind\": \"{}\"}}",
            line.first_record, line.end_x, line.kind
        )
    });
    format!(
        "{{\n  \"measure\": {},\n  \"indent\": {},\n  \"records\": {},\n  \"places\": {},\n  \"lines\": {},\n  \
         \"ruby\": {}\n}}\n",
        paragraph.measure,
        paragraph.indent,
        list(records),
        list(places),
        list(lines),
        list(paragraph.groups.iter().map(ruby)),
    )
}

fn ruby(group: &Group) -> String {
    let text = match &group.ruby {
        Some(ruby) => string(ruby.iter().copied()),
        None => "null".to_string(),
    };
    let xs: Vec<String> = group.ruby_xs.iter().map(u32::to_string).collect();
    format!(
        "{{\"first_record\": {}, \"records\": {}, \"x\": {}, \"text\": {text}, \"xs\": [{}]}}",
        group.first,
        group.length,
        group.x,
        xs.join(", ")
    )
}

/// A list, an item a line.
fn list(items: impl Iterator<Item = String>) -> String {
    let items: Vec<String> = items.map(|item| format!("\n    {item}")).collect();
    match items.is_empty() {
        true => "[]".to_string(),
        false => format!("[{}\n  ]", items.join(",")),
    }
}

/// A string by RFC 8259; what no terminal should see is written by its number.
fn string(characters: impl IntoIterator<Item = char>) -> String {
    let mut string = String::from("\"");
    for character in characters {
        match character {
            '"' | '\\' => string.extend(['\\', character]),
            _ if crate::characters::printable(character) != character => {
                for unit in character.encode_utf16(&mut [0; 2]) {
                    write!(string, "\\u{unit:04x}").expect("a string takes it");
                }
            }
            _ => string.push(character),
        }
    }
    string.push('"');
    string
}
