//! What the questions answer.

use crate::raw::{Begins, FitResult, ReportResult, RunResult};
use crate::refusal::{Error, Lack, UnknownNumber};
use core::fmt;

/// Whether a row fits another.
#[derive(Clone, Copy, Debug, PartialEq, Eq)]
pub enum Fit {
    /// It fits.
    Yes,
    /// No: a resource where pure is asked.
    Kind,
    /// No: the lowest member name of the wanted row that has no match.
    Member(u16),
}

impl Fit {
    /// What is lacking; nothing for yes.
    pub fn lack(self) -> Option<Lack> {
        match self {
            Fit::Yes => None,
            Fit::Kind => Some(Lack::Kind),
            Fit::Member(name) => Some(Lack::Member(name)),
        }
    }

    /// The answer on rows a and b of a text, in words: `row 1 asks for method 4`.
    pub fn words(self, text: &[u8], a: usize, b: usize) -> FitWords<'_> {
        FitWords {
            fit: self,
            text,
            a,
            b,
        }
    }
}

/// Fit's answer on two rows of a text, in words.
pub struct FitWords<'a> {
    fit: Fit,
    text: &'a [u8],
    a: usize,
    b: usize,
}

impl fmt::Display for FitWords<'_> {
    fn fmt(&self, f: &mut fmt::Formatter<'_>) -> fmt::Result {
        let FitWords { fit, text, a, b } = self;
        match fit {
            Fit::Yes => write!(f, "row {a} fits row {b}"),
            Fit::Kind => write!(f, "row {b} asks for a pure row"),
            Fit::Member(name) => write!(f, "row {b} asks for {} {name}", member(text, *b, *name)),
        }
    }
}

/// What a member of a row is, by its line in a text that was read.
fn member(text: &[u8], row: usize, name: u16) -> &'static str {
    let mut lines = text.split(|byte| *byte == b'\n');
    let _ = lines
        .by_ref()
        .filter(|line| line.starts_with(b"type="))
        .nth(row);
    let mut members = lines.take_while(|line| !line.starts_with(b"type="));
    match members.any(|line| field_of(line) == Some(name)) {
        true => "field",
        false => "method",
    }
}

/// The name of the field that a line declares.
fn field_of(line: &[u8]) -> Option<u16> {
    let name = line
        .strip_prefix(b"var=")?
        .split(|byte| *byte == b',')
        .next();
    core::str::from_utf8(name?).ok()?.parse().ok()
}

/// Where the walk along the members of rows a and b ended.
#[derive(Clone, Copy, Debug, PartialEq, Eq)]
pub struct Walk {
    /// Whether row a fits row b.
    pub fit: Fit,
    /// How many members of row a were passed, its first ones: those with names
    /// up to the answered one, one that mismatches included; on yes those up to
    /// b's last. None on kind, and none where b has no member.
    pub passed: usize,
}

impl TryFrom<FitResult> for Walk {
    type Error = Error;

    fn try_from(given: FitResult) -> Result<Walk, Error> {
        given.check()?;
        let fit = match Lack::of(given.lack, given.name)? {
            None => Fit::Yes,
            Some(Lack::Kind) => Fit::Kind,
            Some(Lack::Member(name)) => Fit::Member(name),
            Some(Lack::Count) => return Err(UnknownNumber::of("lack", given.lack).into()),
        };
        let passed = given.passed as usize;
        Ok(Walk { fit, passed })
    }
}

/// How a run ended.
#[derive(Clone, Copy, Debug, PartialEq, Eq)]
pub enum Outcome {
    /// Finished, with main's last slot.
    Done {
        /// The object in that slot.
        value: u16,
    },
    /// The budget's steps were taken.
    Spent,
    /// The next step is a creation, with 256 objects there.
    StoreFull,
    /// The next step is a call, with 64 frames there.
    StackFull,
}

impl Outcome {
    /// The library's number.
    pub const fn number(self) -> u32 {
        match self {
            Outcome::Done { .. } => 0,
            Outcome::Spent => 1,
            Outcome::StoreFull => 2,
            Outcome::StackFull => 3,
        }
    }
}

/// What a run answers.
#[derive(Clone, Copy, Debug, PartialEq, Eq)]
pub struct Run {
    /// How it ended.
    pub outcome: Outcome,
    /// The steps taken.
    pub steps: u32,
    /// The number of objects, the devices among them.
    pub objects: u16,
}

impl TryFrom<RunResult> for Run {
    type Error = Error;

    fn try_from(given: RunResult) -> Result<Run, Error> {
        given.check()?;
        let outcome = match given.outcome {
            0 => Outcome::Done {
                value: given.value as u16,
            },
            1 => Outcome::Spent,
            2 => Outcome::StoreFull,
            3 => Outcome::StackFull,
            number => return Err(UnknownNumber::of("outcome", number).into()),
        };
        Ok(Run {
            outcome,
            steps: given.steps,
            objects: given.objects as u16,
        })
    }
}

/// The run's part of a report.
impl TryFrom<ReportResult> for Run {
    type Error = Error;

    fn try_from(given: ReportResult) -> Result<Run, Error> {
        let [refusal, line, lack, name] = given.four();
        Run::try_from(RunResult {
            refusal,
            line,
            lack,
            name,
            outcome: given.outcome,
            steps: given.steps,
            value: given.value,
            objects: given.objects,
        })
    }
}

/// A report's entries, one holder after another.
#[derive(Clone)]
pub struct Entries<'a>(pub(crate) &'a [u16]);

impl<'a> Iterator for Entries<'a> {
    /// A holder, and what it holds.
    type Item = (u16, &'a [u16]);

    fn next(&mut self) -> Option<Self::Item> {
        let (&[holder, count], rest) = self.0.split_first_chunk()?;
        let (held, rest) = rest.split_at_checked(usize::from(count))?;
        self.0 = rest;
        Some((holder, held))
    }
}
