//! A leaflet's file, and what the characters of an accepted leaflet became (document 02, request 05).

use std::ffi::OsStr;
use std::fs::File;
use std::io::{self, Read};
use std::os::fd::AsFd;
use std::path::Path;

use gelumbrio::TextPlace;

use crate::failure::{Failure, Spot};
use crate::files::{identity, Identity};

/// A leaflet's text, and what its file is called.
#[derive(Debug)]
pub struct Leaflet {
    name: String,
    identity: Identity,
    text: Vec<u8>,
}

/// What an accepted leaflet reads as. Of its characters outside rt and rp, number i is record i.
#[derive(Debug, Default, PartialEq, Eq)]
pub struct Reading {
    /// The characters that became records.
    pub letters: Vec<Letter>,
    /// Its ruby elements.
    pub elements: Vec<Element>,
}

/// A character of a leaflet.
#[derive(Debug, Clone, Copy, PartialEq, Eq)]
pub struct Letter {
    /// The character.
    pub character: char,
    /// Its place in the text, in bytes.
    pub offset: usize,
}

/// A ruby element: a group of records and the characters over it.
#[derive(Debug, Clone, PartialEq, Eq)]
pub struct Element {
    /// The first record of its base.
    pub first: usize,
    /// How many records its base has.
    pub length: usize,
    /// The characters of its rt.
    pub ruby: Vec<char>,
}

/// How a ruby element starts.
const START: &str = "<ruby>";
/// In bytes: far more than a slot's 256 characters need, far less than would not fit in memory.
const LONGEST: u64 = 16 << 20;

impl Leaflet {
    /// Reads a file, or standard input where its name is `-`.
    ///
    /// A byte order mark at its start and the end of its last line belong to the file: programs that write texts put
    /// them there, and people do not see them.
    pub fn read(name: &OsStr) -> Result<Leaflet, Failure> {
        let (file, name) = match name == "-" {
            true => (io::stdin().as_fd().try_clone_to_owned().map(File::from), "standard input".to_string()),
            false => (File::open(name), Path::new(name).display().to_string()),
        };
        let read = file.and_then(|file| Ok((identity(&file.metadata()?), read_all(file)?)));
        let (identity, bytes) = read.map_err(|error| Failure::reading(&name, &error))?;
        if bytes.len() as u64 > LONGEST {
            let what =
                format!("{name} has more than {} MB; a leaflet has 256 characters at most", LONGEST >> 20);
            return Err(Failure::plain(what).advising("Is it the right file?"));
        }
        Ok(Leaflet { name, identity, text: without_marks(bytes) })
    }

    /// What the file is called.
    pub fn name(&self) -> &str {
        &self.name
    }

    /// Which file it is, whatever it is called.
    pub fn identity(&self) -> Identity {
        self.identity
    }

    /// The leaflet's text.
    pub fn text(&self) -> &[u8] {
        &self.text
    }

    /// A place in the text, for a person: so many characters from this byte on.
    pub fn spot(&self, offset: usize, length: usize) -> Spot {
        let TextPlace { line, column, text } = TextPlace::of(&self.text, offset);
        Spot {
            name: format!("{}, line {line}, column {column}", self.name),
            line: text,
            before: column - 1,
            length,
        }
    }
}

fn read_all(from: impl Read) -> io::Result<Vec<u8>> {
    let mut bytes = Vec::new();
    from.take(LONGEST + 1).read_to_end(&mut bytes)?;
    Ok(bytes)
}

/// The text without a byte order mark at its start and without the end of its last line.
fn without_marks(mut bytes: Vec<u8>) -> Vec<u8> {
    if bytes.ends_with(b"\n") {
        bytes.pop();
        if bytes.ends_with(b"\r") {
            bytes.pop();
        }
    }
    if bytes.starts_with("\u{FEFF}".as_bytes()) {
        bytes.drain(..'\u{FEFF}'.len_utf8());
    }
    bytes
}

impl Reading {
    /// What a leaflet reads as that the library has accepted: plain characters and ruby elements, in UTF-8.
    pub fn of(text: &[u8]) -> Reading {
        let mut reading = Reading::default();
        let text = String::from_utf8_lossy(text);
        let mut rest = &*text;
        while let Some(character) = rest.chars().next() {
            let offset = text.len() - rest.len();
            let element = rest.strip_prefix(START).and_then(|inside| inside.split_once("</ruby>"));
            rest = match element {
                Some((inside, after)) => {
                    reading.element(inside, offset + START.len());
                    after
                }
                None => {
                    reading.letters.push(Letter { character, offset });
                    &rest[character.len_utf8()..]
                }
            };
        }
        reading
    }

    /// Reads what stands in a ruby element: a base up to the next tag, then an rt, which may have an rp on each side.
    fn element(&mut self, inside: &str, offset: usize) {
        let (base, over) = inside.split_at(inside.find('<').unwrap_or(inside.len()));
        let rt = over.split_once("<rt>").and_then(|(_rp, rt)| rt.split_once("</rt>"));
        let ruby: Vec<char> = rt.map_or("", |(ruby, _rp)| ruby).chars().collect();
        self.elements.push(Element { first: self.letters.len(), length: base.chars().count(), ruby });
        let letters = base.char_indices().map(|(at, character)| Letter { character, offset: offset + at });
        self.letters.extend(letters);
    }
}

#[cfg(test)]
mod tests {
    use super::*;

    #[test]
    fn a_file_has_marks_that_a_leaflet_has_not() {
        for file in ["食", "食\n", "食\r\n", "\u{FEFF}食\n"] {
            assert_eq!(without_marks(file.as_bytes().to_vec()), "食".as_bytes(), "{file:?}");
        }
        assert_eq!(without_marks(b"\n\n".to_vec()), b"\n");
        assert_eq!(without_marks(b"\r".to_vec()), b"\r");
        assert_eq!(without_marks(Vec::new()), b"");
    }

    #[test]
    fn letters_are_records_and_elements_groups() {
        let reading = Reading::of("は<ruby>頓服<rp>（</rp><rt>とん</rt><rp></rp></ruby>、".as_bytes());
        let letters = [('は', 0), ('頓', 9), ('服', 12), ('、', 58)];
        assert_eq!(reading.letters, letters.map(|(character, offset)| Letter { character, offset }));
        assert_eq!(reading.elements, [Element { first: 1, length: 2, ruby: vec!['と', 'ん'] }]);
        assert_eq!(Reading::of(b""), Reading::default());
    }
}
