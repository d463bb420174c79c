//! What a plain reading of the lines can add to a refusal.

use crate::line::{lines, Entry, Line};
use crate::reader::read;
use crate::reading::{Owner, Place, Reading};
use crate::slot::{filled, Slot};
use crate::words::quoted;
use lexondar::{Reason, Refusal};
use std::ops::Range;

/// What stands at the line at fault, and what would do.
#[derive(Clone, Debug, Default, PartialEq, Eq)]
pub struct Finding {
    /// The piece of the line at fault.
    pub mark: Option<Mark>,
    /// What else helps.
    pub notes: Vec<String>,
}

/// A piece of a line, and what there is to say of it.
#[derive(Clone, Debug, PartialEq, Eq)]
pub struct Mark {
    /// Bytes of the line, counted from 0.
    pub span: Range<usize>,
    pub label: String,
}

impl Finding {
    /// A finding about a piece of the line.
    pub fn at(span: Range<usize>, label: impl Into<String>) -> Finding {
        let label = label.into();
        Finding {
            mark: Some(Mark { span, label }),
            notes: Vec::new(),
        }
    }

    /// With another note.
    pub fn note(self, words: impl Into<String>) -> Finding {
        self.noted(Some(words.into()))
    }

    /// With another note, if there is one.
    pub fn noted(mut self, words: Option<String>) -> Finding {
        self.notes.extend(words);
        self
    }
}

/// A refused text, read as far as its refusal lets one rely on its lines.
pub struct Case<'a> {
    pub text: &'a [u8],
    pub refusal: Refusal,
    pub lines: Vec<Line<'a>>,
    pub reading: Reading,
}

impl<'a> Case<'a> {
    /// Takes the lines apart. Those before the line at fault are in a sheet's
    /// order; that line is too, unless it is torn; and so are all if the
    /// reading was passed. Of a text that is too long none was read.
    pub fn of(text: &'a [u8], refusal: Refusal) -> Case<'a> {
        let lines = lines(text);
        let line = refusal.line as usize;
        let sound = match refusal.reason {
            Reason::BufferTooShort | Reason::TextTooLong => 0,
            Reason::Malformed => line.saturating_sub(1),
            Reason::OutOfLimit
            | Reason::NotAscending
            | Reason::DuplicateRow
            | Reason::NotDefined
                if line > 0 =>
            {
                line
            }
            _ => lines.len(),
        };
        let reading = read(&lines[..sound.min(lines.len())]);
        Case {
            text,
            refusal,
            lines,
            reading,
        }
    }

    /// The line at fault, if the text has it.
    pub fn line(&self) -> Option<&Line<'a>> {
        self.lines.get((self.refusal.line as usize).checked_sub(1)?)
    }

    /// The key and the numbers of the line at fault.
    pub fn entry(&self) -> Option<Entry> {
        self.line()?.entry()
    }

    /// What the line at fault is, or what is wanted of it.
    pub fn place(&self) -> Option<Place> {
        let before = (self.refusal.line as usize).checked_sub(1)?;
        let places = &self.reading.places;
        match places.get(before) {
            Some(place) => Some(*place),
            None => (places.len() == before).then_some(self.reading.next),
        }
    }

    /// The instruction at fault: its owner and its place there.
    pub fn instr(&self) -> Option<(Owner, usize)> {
        match self.place()? {
            Place::Instr(owner, place) => Some((owner, place)),
            _ => None,
        }
    }

    /// The slots that are filled before the instruction at fault.
    pub fn slots(&self) -> Vec<Slot> {
        let instr = self.instr();
        instr.map_or_else(Vec::new, |(owner, place)| {
            filled(&self.reading, owner, place)
        })
    }

    /// A line as it is cited: `` `keep=1`, line 13 ``.
    pub fn cited(&self, line: usize) -> String {
        match line.checked_sub(1).and_then(|place| self.lines.get(place)) {
            Some(cited) => {
                format!("`{}`, line {line}", quoted(cited.bytes))
            }
            None => format!("line {line}"),
        }
    }
}

/// A finding about the number at a place of an entry.
pub fn at_number(entry: &Entry, place: usize, label: impl Into<String>) -> Option<Finding> {
    let span = entry.numbers.get(place)?.span.clone();
    Some(Finding::at(span, label))
}
