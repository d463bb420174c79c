//! The proved library, with buffers of its own for every call.

use lexondar::{Entries, Error, Held, Holders, Run, Walk, Work};

/// The library's questions. Every verdict, line, run and set that the desk
/// shows is one of its answers.
pub struct Library {
    work: Box<Work>,
    held: Box<Held>,
    holders: Box<Holders>,
}

impl Library {
    /// The library with its buffers.
    #[allow(clippy::new_without_default)]
    pub fn new() -> Library {
        Library {
            work: Work::boxed(),
            held: Held::boxed(),
            holders: Holders::boxed(),
        }
    }

    /// The verdict.
    pub fn verdict(&mut self, text: &[u8]) -> Result<(), Error> {
        lexondar::verdict(text, &mut self.work)
    }

    /// Whether row a fits row b.
    pub fn fit(&mut self, text: &[u8], a: usize, b: usize) -> Result<Walk, Error> {
        lexondar::fit(text, a, b, &mut self.work)
    }

    /// A form's own lines.
    pub fn form<'a>(&mut self, text: &'a [u8], form: usize) -> Result<&'a [u8], Error> {
        lexondar::form(text, form, &mut self.work)
    }

    /// The run within a budget.
    pub fn run(&mut self, text: &[u8], budget: u32) -> Result<Run, Error> {
        lexondar::run(text, budget, &mut self.work)
    }

    /// The most steps of a sheet that is sure to finish.
    pub fn bound(&mut self, text: &[u8]) -> Result<u32, Error> {
        lexondar::bound(text, &mut self.work)
    }

    /// What a holder holds after the run.
    pub fn authority(&mut self, text: &[u8], budget: u32, holder: u16) -> Result<&[u16], Error> {
        lexondar::authority(text, budget, holder.into(), &mut self.work, &mut self.held)
    }

    /// What a list of holders holds together after the run.
    pub fn group(&mut self, text: &[u8], budget: u32, list: &[u16]) -> Result<&[u16], Error> {
        lexondar::group(text, budget, list, &mut self.work, &mut self.held)
    }

    /// The run, and every holder with what it holds.
    pub fn report(&mut self, text: &[u8], budget: u32) -> Result<(Run, Entries<'_>), Error> {
        lexondar::report(text, budget, &mut self.work, &mut self.holders)
    }
}
