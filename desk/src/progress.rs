//! How far a check of many sheets is, on standard error where that is a
//! terminal.

use crate::counts::Counts;
use std::io::{self, IsTerminal, Write};
use std::time::{Duration, Instant};

/// How long a line stands before the next.
const PAUSE: Duration = Duration::from_millis(40);

/// A line that is written over and over.
pub struct Progress {
    /// How many sheets there are; 0 where nothing is shown.
    all: usize,
    shown: Option<Instant>,
    /// Whether a line stands there now.
    stands: bool,
}

impl Progress {
    /// Progress of more than one sheet.
    pub fn of(all: usize, quiet: bool) -> Progress {
        let seen = all > 1 && !quiet && io::stderr().is_terminal();
        Progress {
            all: if seen { all } else { 0 },
            shown: None,
            stands: false,
        }
    }

    /// Shows the counts so far, if it is time to.
    pub fn show(&mut self, counts: &Counts) {
        let due = self.shown.is_none_or(|shown| shown.elapsed() >= PAUSE);
        if self.all == 0 || !due {
            return;
        }
        let done = counts.judged() + counts.unread;
        let line = format!(
            "checking {done} of {}, {} refused",
            self.all,
            counts.refusals()
        );
        let _ = write!(io::stderr(), "\r{line}\x1b[K");
        self.shown = Some(Instant::now());
        self.stands = true;
    }

    /// Takes the line away.
    pub fn clear(&mut self) {
        if self.stands {
            let _ = write!(io::stderr(), "\r\x1b[K");
            self.stands = false;
        }
    }
}
