//! The command `gelumbrio`: a leaflet in, its lines and their picture out; and sheets kept in files.
//!
//! What it shows and stores is the proved library's. Nothing here composes.

mod arguments;
mod characters;
mod check;
mod commands;
mod failure;
mod files;
mod glyph;
mod help;
mod json;
mod leaflet;
mod no_leaflet;
mod paragraph;
mod picture;
mod refusals;
mod scratch;
mod sheet_file;
mod style;
mod terminal;

use std::ffi::OsString;
use std::io::{self, Write};
use std::process::ExitCode;

use commands::Done;
use failure::{shown, Failure};
use style::Style;

fn main() -> ExitCode {
    let given: Vec<OsString> = std::env::args_os().skip(1).collect();
    let outcome = commands::run(&given).and_then(|done| written(&done));
    match outcome {
        Ok(()) => ExitCode::SUCCESS,
        Err(failure) => {
            tell(&failure.told(Style::of(&io::stderr())));
            ExitCode::from(failure.status())
        }
    }
}

/// Writes what a command has to say. Everything that it had to do is done.
fn written(done: &Done) -> Result<(), Failure> {
    for note in &done.notes {
        tell(&format!("gelumbrio: note: {}\n", shown(note)));
    }
    let mut output = io::stdout().lock();
    match output.write_all(done.said.as_bytes()).and_then(|()| output.flush()) {
        // Nobody reads on, as with `| head`.
        Err(error) if error.kind() == io::ErrorKind::BrokenPipe => Ok(()),
        Err(error) if done.is_change => Err(Failure::writing("standard output", &error)
            .advising(format!("The sheet is changed all the same: {}", done.said.trim_end()))),
        Err(error) => Err(Failure::writing("standard output", &error)),
        Ok(()) => Ok(()),
    }
}

/// Writes to standard error, where that can be written to.
fn tell(text: &str) {
    let _ = io::stderr().write_all(text.as_bytes());
}
