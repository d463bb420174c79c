//! Why a question has no answer.

use core::fmt;

/// Why a question was refused. Later versions may have more reasons.
#[derive(Clone, Copy, Debug, PartialEq, Eq, Hash)]
#[non_exhaustive]
pub enum Reason {
    /// A work or result buffer is too short.
    BufferTooShort = 1,
    /// The text is over 65,535 bytes.
    TextTooLong = 2,
    /// A line out of shape, an early end, bytes after main.
    Malformed = 3,
    /// A count, kind or name; over 1,024 instructions.
    OutOfLimit = 4,
    /// The names of a row's members do not ascend.
    NotAscending = 5,
    /// The row equals an earlier one.
    DuplicateRow = 6,
    /// A row, form, kept value or slot that is not there.
    NotDefined = 7,
    /// A pure row's form has a field or keeps a resource row.
    ImpureForm = 8,
    /// No such method or field; `get` or `put` in main.
    NoSuchMember = 9,
    /// A value does not fit, or a `new` has not its kept values.
    Misfit = 10,
    /// No such object, a pure one, or a number over 256; or over 16 listed.
    NoHolder = 11,
    /// A body calls its method's own name or a higher one.
    CircularCall = 12,
    /// The most steps are over 4,294,967,295.
    BeyondCount = 13,
    /// A device's form keeps a value or is pure.
    WrongDevice = 14,
}

impl Reason {
    /// Every reason, by ascending number.
    pub const ALL: &'static [Reason] = &[
        Reason::BufferTooShort,
        Reason::TextTooLong,
        Reason::Malformed,
        Reason::OutOfLimit,
        Reason::NotAscending,
        Reason::DuplicateRow,
        Reason::NotDefined,
        Reason::ImpureForm,
        Reason::NoSuchMember,
        Reason::Misfit,
        Reason::NoHolder,
        Reason::CircularCall,
        Reason::BeyondCount,
        Reason::WrongDevice,
    ];

    /// The paper's number of the refusal.
    pub const fn number(self) -> u32 {
        self as u32
    }

    /// The paper's word for it, `misfit`.
    pub const fn word(self) -> &'static str {
        self.said().0
    }

    /// The paper's word, and what is wrong with the sheet or the call.
    const fn said(self) -> (&'static str, &'static str) {
        match self {
            Reason::BufferTooShort => ("short bowl", "a buffer is too short"),
            Reason::TextTooLong => ("long sheet", "the text is over 65,535 bytes"),
            Reason::Malformed => ("torn line", "the line is not in the sheet's shape"),
            Reason::OutOfLimit => ("over measure", "a count, kind or name is outside its limit"),
            Reason::NotAscending => ("wrong order", "member names do not ascend"),
            Reason::DuplicateRow => ("twin", "the row equals an earlier one"),
            Reason::NotDefined => ("loose end", "a row, form, kept value or slot is not there"),
            Reason::ImpureForm => (
                "mixed pure",
                "a pure row's form has a field or keeps a resource",
            ),
            Reason::NoSuchMember => ("no such part", "there is no such method or field"),
            Reason::Misfit => ("misfit", "a value does not fit where it goes"),
            Reason::NoHolder => (
                "no holder",
                "there is no such holder, or over 16 are listed",
            ),
            Reason::CircularCall => (
                "circular call",
                "a body calls its method's own name or a higher one",
            ),
            Reason::BeyondCount => ("beyond count", "the most steps are over 4,294,967,295"),
            Reason::WrongDevice => ("wrong device", "a device's form keeps a value or is pure"),
        }
    }
}

/// A plain sentence.
impl fmt::Display for Reason {
    fn fmt(&self, f: &mut fmt::Formatter<'_>) -> fmt::Result {
        f.write_str(self.said().1)
    }
}

impl TryFrom<u32> for Reason {
    type Error = UnknownNumber;

    fn try_from(number: u32) -> Result<Reason, UnknownNumber> {
        let mut all = Reason::ALL.iter().copied();
        let known = all.find(|reason| reason.number() == number);
        known.ok_or(UnknownNumber::of("refusal", number))
    }
}

/// What is lacking where a value does not fit.
#[derive(Clone, Copy, Debug, PartialEq, Eq, Hash)]
pub enum Lack {
    /// A `new` has not one slot for each kept value.
    Count,
    /// A resource where pure is asked.
    Kind,
    /// The lowest member name of the wanted row that has no match.
    Member(u16),
}

impl Lack {
    /// The library's number.
    pub const fn number(self) -> u32 {
        match self {
            Lack::Count => 1,
            Lack::Kind => 2,
            Lack::Member(_) => 3,
        }
    }

    /// From the library's two numbers; nothing for 0.
    pub(crate) fn of(number: u32, name: u32) -> Result<Option<Lack>, UnknownNumber> {
        match number {
            0 => Ok(None),
            1 => Ok(Some(Lack::Count)),
            2 => Ok(Some(Lack::Kind)),
            3 => Ok(Some(Lack::Member(name as u16))),
            _ => Err(UnknownNumber::of("lack", number)),
        }
    }
}

impl fmt::Display for Lack {
    fn fmt(&self, f: &mut fmt::Formatter<'_>) -> fmt::Result {
        match self {
            Lack::Count => write!(f, "`new` has not one slot for each kept value"),
            Lack::Kind => write!(f, "a pure row is asked for, and a resource is given"),
            Lack::Member(name) => write!(f, "the wanted row asks for member {name}"),
        }
    }
}

/// A refusal: why, the line at fault, counted from 1, or 0 where no line is,
/// and of a misfit what is lacking.
#[derive(Clone, Copy, Debug, PartialEq, Eq, Hash)]
pub struct Refusal {
    /// Why.
    pub reason: Reason,
    /// The line at fault, counted from 1; 0 where no line is.
    pub line: u32,
    /// What is lacking; only a misfit says it.
    pub lack: Option<Lack>,
}

/// `refusal 10 (misfit) at line 19: a value does not fit where it goes: ..`
impl fmt::Display for Refusal {
    fn fmt(&self, f: &mut fmt::Formatter<'_>) -> fmt::Result {
        let Refusal { reason, line, lack } = self;
        write!(f, "refusal {} ({})", reason.number(), reason.word())?;
        if *line > 0 {
            write!(f, " at line {line}")?;
        }
        write!(f, ": {reason}")?;
        match lack {
            None => Ok(()),
            Some(lack) => write!(f, ": {lack}"),
        }
    }
}

/// A number that this crate does not know. The archive is of a later version.
#[derive(Clone, Copy, Debug, PartialEq, Eq, Hash)]
pub struct UnknownNumber {
    /// What the number stands for: a refusal, a lack or an outcome.
    pub field: &'static str,
    /// The number.
    pub number: u32,
}

impl UnknownNumber {
    pub(crate) fn of(field: &'static str, number: u32) -> UnknownNumber {
        UnknownNumber { field, number }
    }
}

impl fmt::Display for UnknownNumber {
    fn fmt(&self, f: &mut fmt::Formatter<'_>) -> fmt::Result {
        let UnknownNumber { field, number } = self;
        write!(f, "{field} {number} is of a later version than the crate")
    }
}

/// Why there is no answer. None of these may pass for one.
#[derive(Clone, Copy, Debug, PartialEq, Eq, Hash)]
#[non_exhaustive]
pub enum Error {
    /// The library refuses.
    Refused(Refusal),
    /// The library says what this crate does not know.
    Unknown(UnknownNumber),
}

impl Error {
    /// The refusal, if it is one.
    pub fn refusal(self) -> Option<Refusal> {
        match self {
            Error::Refused(refusal) => Some(refusal),
            Error::Unknown(_) => None,
        }
    }
}

impl fmt::Display for Error {
    fn fmt(&self, f: &mut fmt::Formatter<'_>) -> fmt::Result {
        match self {
            Error::Refused(refusal) => refusal.fmt(f),
            Error::Unknown(number) => number.fmt(f),
        }
    }
}

impl From<Refusal> for Error {
    fn from(refusal: Refusal) -> Error {
        Error::Refused(refusal)
    }
}

impl From<UnknownNumber> for Error {
    fn from(number: UnknownNumber) -> Error {
        Error::Unknown(number)
    }
}

impl core::error::Error for Refusal {}
impl core::error::Error for UnknownNumber {}
impl core::error::Error for Error {}
