//! A command's arguments: options with a value, options without one, and operands.

use std::collections::VecDeque;
use std::ffi::{OsStr, OsString};
use std::os::unix::ffi::OsStrExt;
use std::path::PathBuf;

use gelumbrio::{Clinic, SlotNumber};

use crate::failure::Failure;

/// What a command may be given.
#[derive(Debug)]
pub struct Grammar {
    /// The command's name.
    pub command: &'static str,
    /// Options with a value, given once.
    pub once: &'static [&'static str],
    /// Options with a value, given any number of times.
    pub often: &'static [&'static str],
    /// Options without a value.
    pub flags: &'static [&'static str],
    /// The names of its operands, in order.
    pub operands: &'static [&'static str],
    /// How many of its operands, the last ones, may be left out.
    pub optional: usize,
}

/// What a command was given.
#[derive(Debug)]
pub struct Arguments {
    command: &'static str,
    values: Vec<(&'static str, OsString)>,
    flags: Vec<&'static str>,
    operands: VecDeque<OsString>,
}

/// A length along a line: in characters of the size that is meant, or in the sheet's own units.
#[derive(Debug, Clone, Copy, PartialEq, Eq)]
pub enum Length {
    /// So many characters set solid.
    Characters(u32),
    /// So many units.
    Units(u32),
}

impl Length {
    /// In units, where a character is so large. Past 32 bits it is as long as can be, which no measure is.
    pub fn units(self, size: u32) -> u32 {
        match self {
            Length::Characters(count) => count.saturating_mul(size),
            Length::Units(units) => units,
        }
    }

    /// From `22` or `22c`, `1760u`; a number alone is read as the function says.
    pub fn parse(text: &str, alone: fn(u32) -> Length) -> Option<Length> {
        if let Some(units) = text.strip_suffix('u') {
            return number(units).map(Length::Units);
        }
        if let Some(count) = text.strip_suffix('c') {
            return number(count).map(Length::Characters);
        }
        number(text).map(alone)
    }
}

/// A number in decimal digits, of 32 bits.
pub fn number(text: &str) -> Option<u32> {
    let is_decimal = !text.is_empty() && text.bytes().all(|byte| byte.is_ascii_digit());
    is_decimal.then(|| text.parse().ok()).flatten()
}

impl Arguments {
    /// Takes a command's arguments apart.
    pub fn parse(grammar: &Grammar, given: &[OsString]) -> Result<Arguments, Failure> {
        let command = grammar.command;
        let mut arguments =
            Arguments { command, values: Vec::new(), flags: Vec::new(), operands: VecDeque::new() };
        let mut given = given.iter();
        let mut only_operands = false;
        while let Some(argument) = given.next() {
            let is_option = argument.as_encoded_bytes().starts_with(b"-") && argument != "-";
            if only_operands || !is_option {
                arguments.operands.push_back(argument.clone());
            } else if argument == "--" {
                only_operands = true;
            } else {
                arguments.option(grammar, argument, &mut given)?;
            }
        }
        arguments.count_operands(grammar)?;
        Ok(arguments)
    }

    fn option<'a>(
        &mut self,
        grammar: &Grammar,
        argument: &OsStr,
        rest: &mut impl Iterator<Item = &'a OsString>,
    ) -> Result<(), Failure> {
        let (name, joined) = name_and_value(argument);
        let known = |names: &[&'static str]| names.iter().copied().find(|known| name == OsStr::new(known));
        if let Some(flag) = known(grammar.flags) {
            if joined.is_some() {
                return Err(self.wrong(format!("--{flag} takes no value")));
            }
            self.flags.push(flag);
            return Ok(());
        }
        let Some(option) = known(grammar.once).or_else(|| known(grammar.often)) else {
            return Err(self.wrong(format!("there is no option {}", argument.display())));
        };
        if grammar.once.contains(&option) && self.value(option).is_some() {
            return Err(self.wrong(format!("--{option} is given twice")));
        }
        // What looks like an option is one; a value that does is joined by `=`.
        let next = || rest.next().filter(|next| !next.as_bytes().starts_with(b"--")).cloned();
        let Some(value) = joined.or_else(next).filter(|value| !value.is_empty()) else {
            return Err(self.wrong(format!("--{option} needs a value")));
        };
        self.values.push((option, value));
        Ok(())
    }

    fn count_operands(&self, grammar: &Grammar) -> Result<(), Failure> {
        let needed = grammar.operands.len() - grammar.optional;
        if let Some(missing) = grammar.operands[..needed].get(self.operands.len()) {
            return Err(self.wrong(format!("{missing} is missing")));
        }
        match self.operands.get(grammar.operands.len()) {
            Some(extra) => Err(self.wrong(format!("what is {} for?", extra.display()))),
            None => Ok(()),
        }
    }

    /// Wrong usage of this command.
    pub fn wrong(&self, what: impl Into<String>) -> Failure {
        Failure::usage(self.command, what)
    }

    /// The next operand.
    pub fn operand(&mut self) -> Option<OsString> {
        self.operands.pop_front()
    }

    /// The next operand, which is a file's name and was found to be there.
    pub fn file(&mut self) -> PathBuf {
        PathBuf::from(self.operand().expect("the operands are counted"))
    }

    /// Whether an option without a value is given.
    pub fn has(&self, flag: &str) -> bool {
        self.flags.contains(&flag)
    }

    fn value(&self, option: &str) -> Option<&OsStr> {
        self.values.iter().find(|(name, _)| *name == option).map(|(_, value)| value.as_os_str())
    }

    /// All values of an option that may be given more than once.
    pub fn all(&self, option: &'static str) -> impl Iterator<Item = &OsStr> {
        self.values.iter().filter(move |(name, _)| *name == option).map(|(_, value)| value.as_os_str())
    }

    /// An option's value that is a file's name.
    pub fn path(&self, option: &str) -> Option<PathBuf> {
        self.value(option).map(PathBuf::from)
    }

    /// An option's value that is a number.
    pub fn number(&self, option: &str) -> Result<Option<u32>, Failure> {
        let Some(value) = self.value(option) else { return Ok(None) };
        match value.to_str().and_then(number) {
            Some(number) => Ok(Some(number)),
            None => Err(self
                .wrong(format!("--{option} {} is no whole number from 0 to 4,294,967,295", value.display()))),
        }
    }

    /// An option's value that is a number and must be given.
    pub fn needed(&self, option: &str) -> Result<u32, Failure> {
        self.number(option)?.ok_or_else(|| self.wrong(format!("--{option} is missing")))
    }

    /// An option's value that is a length.
    pub fn length(&self, option: &str, alone: fn(u32) -> Length) -> Result<Option<Length>, Failure> {
        let Some(value) = self.value(option) else { return Ok(None) };
        match value.to_str().and_then(|text| Length::parse(text, alone)) {
            Some(length) => Ok(Some(length)),
            None => Err(self.wrong(format!(
                "--{option} {} is no length; 2 or 2c is two characters, 160u is 160 units",
                value.display()
            ))),
        }
    }

    /// The clinic that calls.
    pub fn clinic(&self) -> Result<Clinic, Failure> {
        self.needed("clinic").map(Clinic)
    }

    /// The slot that is called.
    pub fn slot(&self) -> Result<SlotNumber, Failure> {
        self.needed("slot").map(SlotNumber)
    }
}

/// The name of an option, and the value that is joined to it by `=`. After a single hyphen there is no option's name.
fn name_and_value(argument: &OsStr) -> (&OsStr, Option<OsString>) {
    let Some(option) = argument.as_bytes().strip_prefix(b"--") else { return (argument, None) };
    match option.iter().position(|&byte| byte == b'=') {
        Some(at) => {
            (OsStr::from_bytes(&option[..at]), Some(OsStr::from_bytes(&option[at + 1..]).to_os_string()))
        }
        None => (OsStr::from_bytes(option), None),
    }
}

#[cfg(test)]
mod tests {
    use super::*;

    #[test]
    fn a_length_is_in_characters_or_units() {
        let parse = |text| Length::parse(text, Length::Characters);
        assert_eq!(parse("22"), Some(Length::Characters(22)));
        assert_eq!(parse("22c"), Some(Length::Characters(22)));
        assert_eq!(parse("1760u"), Some(Length::Units(1760)));
        for wrong in ["", "u", "-1", "+1", "1.5", "22 ", "２２", "4294967296", "1uu"] {
            assert_eq!(parse(wrong), None, "{wrong}");
        }
        assert_eq!(Length::Characters(22).units(80), 1760);
        assert_eq!(Length::Characters(u32::MAX).units(80), u32::MAX);
    }

    #[test]
    fn options_stand_anywhere_and_may_be_joined_to_their_values() {
        let grammar = Grammar {
            command: "test",
            once: &["svg"],
            often: &["slot"],
            flags: &["marks"],
            operands: &["FILE", "LEAFLET"],
            optional: 1,
        };
        let parse = |given: &[&str]| {
            Arguments::parse(&grammar, &given.iter().map(OsString::from).collect::<Vec<_>>())
        };
        let mut all = parse(&["--svg=a=b", "x", "--slot", "1", "--marks", "--slot=2", "--", "--y"]).unwrap();
        assert_eq!(all.path("svg"), Some(PathBuf::from("a=b")));
        assert_eq!(all.all("slot").collect::<Vec<_>>(), ["1", "2"]);
        assert!(all.has("marks"));
        assert_eq!((all.file(), all.operand()), (PathBuf::from("x"), Some(OsString::from("--y"))));

        assert_eq!(parse(&["-"]).unwrap().file(), PathBuf::from("-"));
        for wrong in [
            &[][..],
            &["x", "y", "z"],
            &["x", "--svg"],
            &["x", "--svg="],
            &["x", "--svg", "--marks"],
            &["x", "--svg=a", "--svg=b"],
            &["x", "--marks=1"],
            &["x", "--mark"],
            &["x", "-m"],
            &["x", "--"],
        ] {
            assert_eq!(parse(wrong).is_err(), wrong != ["x", "--"], "{wrong:?}");
        }
    }
}
