//! The commands.

mod change;
mod compose;
mod sheet;
mod show;
mod slots;

use std::ffi::{OsStr, OsString};
use std::os::unix::ffi::OsStrExt;

use crate::arguments::{Arguments, Grammar};
use crate::failure::Failure;
use crate::help;

/// What a command has done.
#[derive(Debug, Default)]
pub struct Done {
    /// What goes to standard output.
    pub said: String,
    /// What a person should know besides; it goes to standard error.
    pub notes: Vec<String>,
    /// Whether a sheet is another one now.
    pub is_change: bool,
}

impl Done {
    fn saying(said: String) -> Done {
        Done { said, ..Done::default() }
    }

    fn changing(said: String) -> Done {
        Done { said, is_change: true, ..Done::default() }
    }
}

type Run = fn(Arguments) -> Result<Done, Failure>;

/// Every command with what it takes, in the order in which help lists them.
const COMMANDS: [(&Grammar, Run); 8] = [
    (&compose::GRAMMAR, compose::run),
    (&sheet::NEW, sheet::new),
    (&sheet::CHECK, sheet::check),
    (&slots::TAKE, slots::take),
    (&slots::GIVE, slots::give),
    (&change::IMPORT, change::import),
    (&change::EDIT, change::edit),
    (&show::GRAMMAR, show::run),
];

/// Runs the command that the arguments name.
pub fn run(given: &[OsString]) -> Result<Done, Failure> {
    let Some(first) = given.first() else {
        return Err(Failure::usage("", "no command is given"));
    };
    if first == "--version" || first == "-V" {
        return Ok(Done::saying(format!("gelumbrio {}\n", env!("CARGO_PKG_VERSION"))));
    }
    let mut options = given.iter().take_while(|argument| *argument != "--");
    if first == "help" || options.any(|argument| argument == "--help" || argument == "-h") {
        return help(given.iter().filter(|argument| *argument != "help"));
    }
    match named(given) {
        Some((grammar, run, rest)) => run(Arguments::parse(grammar, rest)?),
        None if first == "sheet" => {
            Err(Failure::usage("sheet", "sheet new makes a sheet, sheet check looks at one"))
        }
        None => Err(no_command(first)),
    }
}

/// The help for the command that these arguments begin with, or for all.
fn help<'a>(given: impl Iterator<Item = &'a OsString>) -> Result<Done, Failure> {
    let words: Vec<&OsString> = given.take_while(|argument| !argument.as_bytes().starts_with(b"-")).collect();
    let Some(first) = words.first() else { return Ok(Done::saying(help::whole())) };
    let two = words.get(1).and_then(|second| help::of(&format!("{} {}", first.display(), second.display())));
    let told = two.or_else(|| help::of(&first.to_string_lossy()));
    told.map(Done::saying).ok_or_else(|| no_command(first))
}

fn no_command(named: &OsStr) -> Failure {
    Failure::usage("", format!("there is no command {}", named.display()))
}

/// The command with whose name, of one word or two, the arguments begin, and those after it.
fn named(given: &[OsString]) -> Option<(&'static Grammar, Run, &[OsString])> {
    COMMANDS.iter().find_map(|&(grammar, run)| {
        let words: Vec<&str> = grammar.command.split(' ').collect();
        let is_meant =
            given.len() >= words.len() && words.iter().zip(given).all(|(word, given)| given == word);
        is_meant.then(|| (grammar, run, &given[words.len()..]))
    })
}
