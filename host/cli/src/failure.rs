//! Why the program ends without having done what was asked, told to a person.

use std::fmt::Display;
use std::io;

use crate::characters::{columns, printable};
use crate::style::Style;

/// Why the program does not end well.
#[derive(Debug)]
pub enum Failure {
    /// The arguments are wrong.
    Usage {
        /// What is wrong with them.
        what: String,
        /// The command whose help tells how it is done.
        command: &'static str,
    },
    /// A call was refused, or a file cannot be used.
    Refused(Box<Refused>),
}

/// What was refused, where, and what to do.
#[derive(Debug, Default)]
pub struct Refused {
    /// The refusal's number, where it has one.
    pub number: Option<u32>,
    /// What is wrong.
    pub what: String,
    /// Where it is.
    pub spot: Option<Spot>,
    /// What to do, a sentence each.
    pub advice: Vec<String>,
}

/// A place in a text.
#[derive(Debug)]
pub struct Spot {
    /// What the place is called.
    pub name: String,
    /// The line that it is in.
    pub line: String,
    /// How many characters of the line stand before it.
    pub before: usize,
    /// How many characters are meant, at least one.
    pub length: usize,
}

/// The most columns of a text's line that are shown around a place in it.
const EXCERPT: usize = 64;

impl Failure {
    /// Wrong arguments for a command.
    pub fn usage(command: &'static str, what: impl Into<String>) -> Failure {
        Failure::Usage { what: what.into(), command }
    }

    /// Something refused without a number.
    pub fn plain(what: impl Into<String>) -> Failure {
        Failure::from(Refused { what: what.into(), ..Refused::default() })
    }

    /// Something refused with this number.
    pub fn numbered(number: u32, what: impl Into<String>) -> Failure {
        Failure::from(Refused { number: Some(number), what: what.into(), ..Refused::default() })
    }

    /// With the place where it is.
    pub fn at(mut self, spot: Spot) -> Failure {
        if let Failure::Refused(refused) = &mut self {
            refused.spot = Some(spot);
        }
        self
    }

    /// With a sentence more of what to do.
    pub fn advising(mut self, advice: impl Into<String>) -> Failure {
        if let Failure::Refused(refused) = &mut self {
            refused.advice.push(advice.into());
        }
        self
    }

    /// A file that cannot be read.
    pub fn reading(name: impl Display, error: &io::Error) -> Failure {
        let failure = Failure::plain(format!("cannot read {name}: {}", reason(error)));
        match error.kind() {
            io::ErrorKind::NotFound => failure.advising("Is its name spelt right?"),
            _ => failure,
        }
    }

    /// A file that cannot be written, replaced or locked.
    pub fn writing(name: impl Display, error: &io::Error) -> Failure {
        let failure = Failure::plain(format!("cannot write {name}: {}", reason(error)));
        match error.kind() {
            io::ErrorKind::NotFound => failure.advising("Is its name spelt right, and is its folder there?"),
            io::ErrorKind::AlreadyExists => {
                failure.advising("It would be lost: name another file, or move this one away first.")
            }
            io::ErrorKind::PermissionDenied => failure.advising(
                "A file is replaced by a new one beside it: both it and its folder must be writable.",
            ),
            _ => failure,
        }
    }

    /// The program's exit status.
    pub fn status(&self) -> u8 {
        match self {
            Failure::Refused(_) => 1,
            Failure::Usage { .. } => 2,
        }
    }

    /// What is written to standard error.
    pub fn told(&self, style: Style) -> String {
        match self {
            Failure::Usage { what, command } => {
                let help = format!("gelumbrio {command}{}--help", if command.is_empty() { "" } else { " " });
                let (head, what) = (style.wrong("wrong usage"), shown(what));
                format!("gelumbrio: {head}: {what}\n  `{help}` shows how it is done.\n")
            }
            Failure::Refused(refused) => refused.told(style),
        }
    }
}

impl From<Refused> for Failure {
    fn from(refused: Refused) -> Failure {
        Failure::Refused(Box::new(refused))
    }
}

impl Refused {
    fn told(&self, style: Style) -> String {
        let head = match self.number {
            Some(number) => format!("{}: ", style.wrong(&format!("refused with {number}"))),
            None => String::new(),
        };
        let mut told = format!("gelumbrio: {head}{}\n", shown(&self.what));
        if let Some(spot) = &self.spot {
            told.push_str(&spot.told(style));
        }
        for advice in &self.advice {
            told.push_str(&format!("  {} {}\n", style.faint("="), shown(advice)));
        }
        told
    }
}

impl Spot {
    /// The place's name, its line or as much of it as is near, and a mark under the place.
    fn told(&self, style: Style) -> String {
        let line: Vec<char> = self.line.chars().map(printable).collect();
        let (start, end) = self.excerpt(&line);
        let (left, right) = (if start > 0 { "…" } else { "" }, if end < line.len() { "…" } else { "" });
        let excerpt: String = line[start..end].iter().collect();

        let before = self.before.min(line.len());
        let indent = width(&line[start..before]) + left.chars().count();
        let meant = &line[before..end.min(before + self.length)];
        let mark = "^".repeat(width(meant).max(1));
        let bar = style.faint("|");
        format!(
            "  {} {}\n   {bar}\n   {bar} {left}{excerpt}{right}\n   {bar} {}{}\n",
            style.faint("-->"),
            shown(&self.name),
            " ".repeat(indent),
            style.wrong(&mark),
        )
    }

    /// The characters of a line that are shown: the place is among them, and as many on both sides as there is room.
    fn excerpt(&self, line: &[char]) -> (usize, usize) {
        let at = self.before.min(line.len());
        let (mut start, mut end) = (at, at);
        let mut room = EXCERPT;
        loop {
            let (can_left, can_right) = (start > 0, end < line.len());
            // A third before the place and two thirds after it, as long as there is something.
            let takes_left = can_left && (!can_right || 2 * (at - start) < end - at);
            let next = if takes_left { start.wrapping_sub(1) } else { end };
            // A character takes a column at least, so that a row of marks has an end too.
            let taken = line.get(next).map(|&character| columns(character).max(1));
            match taken.and_then(|taken| room.checked_sub(taken)) {
                Some(rest) => room = rest,
                None => return (start, end),
            }
            if takes_left {
                start -= 1;
            } else {
                end += 1;
            }
        }
    }
}

/// A text with what a file's name or a leaflet may have in it and no terminal should get.
pub fn shown(text: &str) -> String {
    text.chars().map(|character| if character == '\n' { character } else { printable(character) }).collect()
}

/// How many columns these characters take.
fn width(characters: &[char]) -> usize {
    characters.iter().map(|&character| columns(character)).sum()
}

/// What the system says, without its number.
fn reason(error: &io::Error) -> impl Display {
    let told = error.to_string();
    match told.split_once(" (os error") {
        Some((told, _)) => told.to_string(),
        None => told,
    }
}

#[cfg(test)]
mod tests {
    use super::*;

    fn spot(line: &str, before: usize, length: usize) -> String {
        let spot = Spot { name: "here".to_string(), line: line.to_string(), before, length };
        spot.told(Style::plain())
    }

    #[test]
    fn the_mark_stands_under_the_place() {
        assert_eq!(
            spot("1日3回（毎食後）", 4, 1),
            "  --> here\n   |\n   | 1日3回（毎食後）\n   |       ^^\n"
        );
        assert_eq!(spot("食<b>後", 1, 3), "  --> here\n   |\n   | 食<b>後\n   |   ^^^\n");
        // At the end there is nothing to stand under.
        assert_eq!(spot("食後", 2, 1), "  --> here\n   |\n   | 食後\n   |     ^\n");
        assert_eq!(spot("", 0, 1), "  --> here\n   |\n   | \n   | ^\n");
    }

    #[test]
    fn of_a_long_line_the_part_around_the_place_is_shown() {
        let text: Vec<char> = (0..300).filter_map(|index| char::from_u32(0x4E00 + index)).collect();
        for before in [0, 1, 20, 100, 250, 299] {
            let told = spot(&text.iter().collect::<String>(), before, 1);
            let lines: Vec<&str> = told.lines().collect();
            let shown: Vec<char> = lines[2].chars().collect();
            assert!(width(&shown) <= EXCERPT + 7, "{told}");
            let mark = lines[3].find('^').expect("a mark");
            let under = (0..shown.len()).find(|&index| width(&shown[..index]) == mark);
            assert_eq!(under.map(|index| shown[index]), Some(text[before]), "{told}");
        }
    }

    #[test]
    fn a_row_of_marks_has_an_end() {
        let told = spot(&"\u{301}".repeat(1_000_000), 500_000, 1);
        assert!(told.chars().count() < 200, "{told}");
    }

    #[test]
    fn a_text_cannot_steer_the_terminal() {
        assert!(!spot("食\u{1B}[2J後\u{202E}", 1, 1).contains(['\u{1B}', '\u{202E}']));
    }
}
