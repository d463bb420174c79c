//! What the commands share: the library, the two outputs, and the exit status.

use crate::explain::explain;
use crate::format::refused;
use crate::library::Library;
use crate::style::Style;
use crate::text::{Text, Unread};
use lexondar::{Error, Reason, Refusal};
use std::ffi::OsStr;
use std::io::{self, BufWriter, IsTerminal, Stdout, Write};

/// How a command ended; what is worse is greater.
#[derive(Clone, Copy, Debug, PartialEq, Eq, PartialOrd, Ord)]
pub enum Status {
    /// Everything was accepted.
    Accepted = 0,
    /// Something was refused.
    Refused = 1,
    /// The command's words are wrong, or a file can't be read or written.
    Failed = 2,
}

/// A command at work.
pub struct Desk {
    pub library: Library,
    /// For what is printed.
    pub style: Style,
    pub status: Status,
    out: BufWriter<Stdout>,
    /// Whether standard output took all so far.
    open: bool,
}

impl Desk {
    #[allow(clippy::new_without_default)]
    pub fn new() -> Desk {
        Desk {
            library: Library::new(),
            style: Style::of(&io::stdout()),
            status: Status::Accepted,
            out: BufWriter::new(io::stdout()),
            open: true,
        }
    }

    /// Remembers the worst that happened.
    pub fn ended(&mut self, status: Status) {
        self.status = self.status.max(status);
    }

    /// One line on standard error.
    pub fn complain(&mut self, words: &str) {
        self.flush();
        let _ = writeln!(io::stderr(), "desk: {words}");
        self.ended(Status::Failed);
    }

    /// A file that is not read.
    pub fn unread(&mut self, unread: &Unread) {
        let name = crate::format::plain(&unread.name);
        self.complain(&format!("{name}: {}", unread.why));
    }

    /// A file's text, or a line that says why there is none.
    pub fn text(&mut self, word: &OsStr) -> Option<Text> {
        match Text::read(word) {
            Ok(text) => Some(text),
            Err(unread) => {
                self.unread(&unread);
                None
            }
        }
    }

    /// A refusal, explained, on standard output.
    pub fn refused(&mut self, text: &Text, error: Error) {
        let finding = explain(&mut self.library, text, error);
        let words = refused(self.style, text, error, &finding);
        self.put(&words);
        self.ended(Status::Refused);
    }

    /// A refusal where an answer was asked for: explained on standard error, so
    /// that standard output has answers alone. Where the sheet is in order and
    /// the question is not, a note says what could be asked.
    pub fn no_answer(&mut self, text: &Text, error: Error, note: Option<String>) {
        let asked = error.refusal().is_some_and(is_of_question);
        let finding = explain(&mut self.library, text, error);
        let finding = finding.noted(note.filter(|_| asked));
        self.flush();
        let words = refused(Style::of(&io::stderr()), text, error, &finding);
        let _ = io::stderr().write_all(words.as_bytes());
        self.ended(Status::Refused);
    }

    /// Prints.
    pub fn put(&mut self, words: &str) {
        self.put_bytes(words.as_bytes());
    }

    /// Prints bytes as they are.
    pub fn put_bytes(&mut self, bytes: &[u8]) {
        if self.open {
            let written = self.out.write_all(bytes);
            self.is_written(written);
        }
    }

    /// Hands on what was printed.
    pub fn flush(&mut self) {
        if self.open {
            let written = self.out.flush();
            self.is_written(written);
        }
    }

    /// The first time that standard output takes no more, it is said; the rest
    /// of the work goes on without it.
    fn is_written(&mut self, written: io::Result<()>) {
        if let Err(error) = written {
            self.open = false;
            let _ = writeln!(io::stderr(), "desk: standard output: {error}");
            self.ended(Status::Failed);
        }
    }

    /// Whether what is printed is seen at once.
    pub fn is_seen(&self) -> bool {
        io::stdout().is_terminal()
    }
}

/// Whether the sheet is in order, and a number that was asked about is not
/// there.
fn is_of_question(refusal: Refusal) -> bool {
    let numbers = matches!(refusal.reason, Reason::NotDefined | Reason::NoHolder);
    numbers && refusal.line == 0
}
