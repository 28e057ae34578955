//! Colour, where a person sees it.

use std::env;
use std::io::IsTerminal;

/// Whether what is written may have colour.
#[derive(Debug, Clone, Copy)]
pub struct Style {
    is_coloured: bool,
}

impl Style {
    /// Coloured on a terminal, unless NO_COLOR is set and not empty, or the terminal has no colour.
    pub fn of(stream: &impl IsTerminal) -> Style {
        let refused = env::var_os("NO_COLOR").is_some_and(|value| !value.is_empty());
        let is_dumb = env::var_os("TERM").is_some_and(|terminal| terminal == "dumb");
        Style { is_coloured: stream.is_terminal() && !refused && !is_dumb }
    }

    /// Without colour.
    #[cfg(test)]
    pub fn plain() -> Style {
        Style { is_coloured: false }
    }

    /// What is wrong.
    pub fn wrong(self, text: &str) -> String {
        self.painted("1;31", text)
    }

    /// What stands beside the text and is no part of it.
    pub fn faint(self, text: &str) -> String {
        self.painted("2", text)
    }

    fn painted(self, code: &str, text: &str) -> String {
        match self.is_coloured {
            true => format!("\u{1B}[{code}m{text}\u{1B}[0m"),
            false => text.to_string(),
        }
    }
}
