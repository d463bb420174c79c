//! The results of the questions, as the library lays them out.

use crate::refusal::{Error, Lack, Reason, Refusal};

/// The four numbers that every result begins with: a refusal's number or 0,
/// its line or 0, what is lacking (0 nothing, 1 count, 2 kind, 3 a member), and
/// the member's name or 0.
pub type Four = [u32; 4];

/// The fit question's answer: the four numbers, and 1 for yes; with 0 the four
/// say what is lacking. And the members of row a that the walk passed, of a
/// refused one 0.
#[repr(C)]
#[derive(Clone, Copy, Debug, PartialEq, Eq)]
pub struct FitResult {
    /// 0, or the number of the refusal.
    pub refusal: u32,
    /// The line at fault, or 0.
    pub line: u32,
    /// What is lacking, or 0.
    pub lack: u32,
    /// The name of the member that is lacking, or 0.
    pub name: u32,
    /// 1 where row a fits row b.
    pub fits: u32,
    /// The members of row a that the walk passed.
    pub passed: u32,
}

/// A verdict: the four numbers.
#[repr(C)]
#[derive(Clone, Copy, Debug, PartialEq, Eq)]
pub struct VerdictResult {
    /// 0, or the number of the refusal.
    pub refusal: u32,
    /// The line at fault, or 0.
    pub line: u32,
    /// What is lacking, or 0.
    pub lack: u32,
    /// The name of the member that is lacking, or 0.
    pub name: u32,
}

/// A run's answer: the four numbers; of an accepted sheet the outcome, the
/// steps taken, the value or 65,535, and the number of objects, of a refused
/// one 0.
#[repr(C)]
#[derive(Clone, Copy, Debug, PartialEq, Eq)]
pub struct RunResult {
    /// 0, or the number of the refusal.
    pub refusal: u32,
    /// The line at fault, or 0.
    pub line: u32,
    /// What is lacking, or 0.
    pub lack: u32,
    /// The name of the member that is lacking, or 0.
    pub name: u32,
    /// How the run ended.
    pub outcome: u32,
    /// The steps.
    pub steps: u32,
    /// Main's last slot, or 65,535 of an unfinished run.
    pub value: u32,
    /// The number of objects.
    pub objects: u32,
}

/// The authority question's answer: the four numbers, and how many numbers
/// were written, of a refused one 0.
#[repr(C)]
#[derive(Clone, Copy, Debug, PartialEq, Eq)]
pub struct AuthorityResult {
    /// 0, or the number of the refusal.
    pub refusal: u32,
    /// The line at fault, or 0.
    pub line: u32,
    /// What is lacking, or 0.
    pub lack: u32,
    /// The name of the member that is lacking, or 0.
    pub name: u32,
    /// How many numbers were written.
    pub count: u32,
}

/// A report: a run's answer, and how many numbers the holders' entries take,
/// of a refused sheet 0.
#[repr(C)]
#[derive(Clone, Copy, Debug, PartialEq, Eq)]
pub struct ReportResult {
    /// 0, or the number of the refusal.
    pub refusal: u32,
    /// The line at fault, or 0.
    pub line: u32,
    /// What is lacking, or 0.
    pub lack: u32,
    /// The name of the member that is lacking, or 0.
    pub name: u32,
    /// How the run ended.
    pub outcome: u32,
    /// The steps.
    pub steps: u32,
    /// Main's last slot, or 65,535 of an unfinished run.
    pub value: u32,
    /// The number of objects.
    pub objects: u32,
    /// How many numbers were written.
    pub count: u32,
}

/// The place of a form's lines: the four numbers, where they begin in the text
/// and how many bytes they have, of a refused one 0.
#[repr(C)]
#[derive(Clone, Copy, Debug, PartialEq, Eq)]
pub struct FormResult {
    /// 0, or the number of the refusal.
    pub refusal: u32,
    /// The line at fault, or 0.
    pub line: u32,
    /// What is lacking, or 0.
    pub lack: u32,
    /// The name of the member that is lacking, or 0.
    pub name: u32,
    /// Where the lines begin in the text.
    pub start: usize,
    /// How many bytes they have.
    pub length: usize,
}

/// The most steps that a run can need: the four numbers, and the steps, of a
/// refused one 0.
#[repr(C)]
#[derive(Clone, Copy, Debug, PartialEq, Eq)]
pub struct BoundResult {
    /// 0, or the number of the refusal.
    pub refusal: u32,
    /// The line at fault, or 0.
    pub line: u32,
    /// What is lacking, or 0.
    pub lack: u32,
    /// The name of the member that is lacking, or 0.
    pub name: u32,
    /// The steps.
    pub steps: u32,
}

/// A result, by the four numbers that it begins with.
pub trait Begins {
    /// The four numbers.
    fn four(&self) -> Four;

    /// Nothing for 0, or the refusal that the four numbers say.
    fn check(&self) -> Result<(), Error> {
        match self.four() {
            [0, ..] => Ok(()),
            [number, line, lack, name] => {
                let reason = Reason::try_from(number)?;
                let lack = Lack::of(lack, name)?;
                Err(Refusal { reason, line, lack }.into())
            }
        }
    }
}

macro_rules! begin_alike {
    ($($result:ty),*) => {
        $(impl Begins for $result {
            fn four(&self) -> Four {
                [self.refusal, self.line, self.lack, self.name]
            }
        })*
    };
}

begin_alike! { FitResult, VerdictResult, RunResult, AuthorityResult, ReportResult, FormResult, BoundResult }
