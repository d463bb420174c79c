//! Colours, where they are wanted.

use std::env;
use std::io::IsTerminal;

/// Whether words get colours.
#[derive(Clone, Copy, Debug, Default)]
pub struct Style {
    colours: bool,
}

impl Style {
    /// No colours.
    pub const PLAIN: Style = Style { colours: false };

    /// Colours where the stream is a terminal that has them, and nobody asked
    /// for none.
    pub fn of(stream: &impl IsTerminal) -> Style {
        let refused = env::var_os("NO_COLOR").is_some_and(|value| !value.is_empty());
        let dumb = env::var_os("TERM").is_none_or(|term| term == "dumb" || term.is_empty());
        Style {
            colours: stream.is_terminal() && !refused && !dumb,
        }
    }

    fn paint(self, code: &str, words: &str) -> String {
        match self.colours {
            true => format!("\x1b[{code}m{words}\x1b[0m"),
            false => words.into(),
        }
    }

    /// A name that a reader looks for.
    pub fn bold(self, words: &str) -> String {
        self.paint("1", words)
    }

    /// What is refused.
    pub fn fault(self, words: &str) -> String {
        self.paint("1;31", words)
    }

    /// What is accepted.
    pub fn good(self, words: &str) -> String {
        self.paint("32", words)
    }

    /// What frames an excerpt.
    pub fn frame(self, words: &str) -> String {
        self.paint("34", words)
    }
}
