//! The reasons for which a sheet or a question is turned away.

/// What is lacking where a value does not fit.
#[derive(Clone, Copy, Debug, PartialEq, Eq, PartialOrd, Ord, Hash)]
pub enum Lack {
    /// `new` has not one slot for each kept value.
    Count,
    /// A resource is given where pure is asked.
    Kind,
    /// The lowest name that is asked for and has no match.
    Member(u16),
}

impl Lack {
    /// The number of this kind of lack, 1 to 3.
    pub fn number(self) -> u32 {
        match self {
            Lack::Count => 1,
            Lack::Kind => 2,
            Lack::Member(_) => 3,
        }
    }

    /// The name of the member that has no match, 0 if no member is lacking.
    pub fn name(self) -> u16 {
        match self {
            Lack::Count | Lack::Kind => 0,
            Lack::Member(name) => name,
        }
    }
}

/// A reason that has a number in the rules.
///
/// Number 1 (a short buffer) is left out: this library lends no buffer and
/// takes none, so no call of it can be turned away for that reason.
#[derive(Clone, Copy, Debug, PartialEq, Eq, PartialOrd, Ord, Hash)]
pub enum Reason {
    LongSheet,
    TornLine,
    OverMeasure,
    WrongOrder,
    Twin,
    LooseEnd,
    MixedPure,
    NoSuchPart,
    Misfit(Lack),
    NoHolder,
    /// A body calls its own method's name or a higher one.
    CircularCall,
    /// Main's amount has no place in 32 bits.
    BeyondCount,
    /// A device's form keeps a value or is pure.
    WrongDevice,
}

impl Reason {
    /// The reason's number in the rules, 2 to 14.
    pub fn number(self) -> u32 {
        match self {
            Reason::LongSheet => 2,
            Reason::TornLine => 3,
            Reason::OverMeasure => 4,
            Reason::WrongOrder => 5,
            Reason::Twin => 6,
            Reason::LooseEnd => 7,
            Reason::MixedPure => 8,
            Reason::NoSuchPart => 9,
            Reason::Misfit(_) => 10,
            Reason::NoHolder => 11,
            Reason::CircularCall => 12,
            Reason::BeyondCount => 13,
            Reason::WrongDevice => 14,
        }
    }
}

/// A reason and the line it stands on; line 0 where no line is at fault.
#[derive(Clone, Copy, Debug, PartialEq, Eq, Hash)]
pub struct Refusal {
    pub reason: Reason,
    pub line: u32,
}

impl Refusal {
    pub fn at(reason: Reason, line: u32) -> Refusal {
        Refusal { reason, line }
    }

    /// The refusal's number in the rules, 2 to 14.
    pub fn number(self) -> u32 {
        self.reason.number()
    }

    /// What is lacking; only a misfit lacks something.
    pub fn lack(self) -> Option<Lack> {
        match self.reason {
            Reason::Misfit(lack) => Some(lack),
            _ => None,
        }
    }
}
