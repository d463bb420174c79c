//! The words of the command.

mod check;
mod diff;
mod explain;
mod fit;
mod form;
mod holders;
mod list;
mod report;
mod run;
mod sure;
mod timeline;

pub use check::judge;
pub use timeline::shown as timeline_shown;

use crate::args::{Choice, Given, Usage};
use crate::desk::Desk;

/// The steps that a run may take if nobody says otherwise, as the program's.
pub const BUDGET: u32 = 10_000;

/// A word of the command, with its page.
pub struct Command {
    pub word: &'static str,
    /// What follows it.
    pub takes: &'static str,
    /// One line.
    pub about: &'static str,
    /// The rest of its page.
    pub more: &'static str,
    pub choices: &'static [Choice],
    /// What to type, and what for.
    pub examples: &'static [(&'static str, &'static str)],
    pub run: fn(&Given, &mut Desk) -> Result<(), Usage>,
}

/// Every word, in the order in which a writer of sheets meets them.
pub const COMMANDS: [Command; 11] = [
    check::COMMAND,
    explain::COMMAND,
    list::COMMAND,
    fit::COMMAND,
    run::COMMAND,
    holders::COMMAND,
    timeline::COMMAND,
    diff::COMMAND,
    form::COMMAND,
    sure::COMMAND,
    report::COMMAND,
];

/// A budget other than the program's.
const BUDGET_CHOICE: Choice = Choice {
    name: "--budget",
    value: Some("N"),
    about: "take at most N steps, 0 to 4294967295 (10000)",
};

/// A budget for looking at every step.
const STEPS_CHOICE: Choice = Choice {
    name: "--budget",
    value: Some("N"),
    about: "take at most N steps, 0 to 100000 (10000)",
};

/// The most steps that are looked at one by one: the library is asked after
/// each of them, and runs from the start.
const MOST_STEPS: u32 = 100_000;

/// The budget that was given, or the program's.
fn budget(given: &Given, most: u32) -> Result<u32, Usage> {
    Ok(given.number("--budget", most)?.unwrap_or(BUDGET))
}
