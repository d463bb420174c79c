//! `desk report`: what the program prints.

use super::{Command, BUDGET};
use crate::args::{Given, Usage};
use crate::desk::{Desk, Status};
use crate::format::line_of;
use crate::library::Library;
use lexondar::raw::NO_VALUE;
use lexondar::{Error, Outcome};
use std::fmt::Write;

pub const COMMAND: Command = Command {
    word: "report",
    takes: "FILE..",
    about: "print the program's block for each sheet, one after another",
    more: "Each block is what `sheet_report` prints: verdict and line, then outcome, steps, value and\n\
           the holders of a run of at most 10,000 steps.",
    choices: &[],
    examples: &[("desk report *.sheet > season.txt", "a season's blocks")],
    run,
};

fn run(given: &Given, desk: &mut Desk) -> Result<(), Usage> {
    if given.words.is_empty() {
        return Usage::new("takes files");
    }
    for file in &given.words {
        if let Some(text) = desk.text(file) {
            match block(&mut desk.library, &text.bytes) {
                Ok(lines) => desk.put(&lines),
                Err(error @ Error::Refused(refusal)) => {
                    let number = refusal.reason.number();
                    desk.put(&format!("verdict={number}\nline={}\n", line_of(error)));
                    desk.ended(Status::Refused);
                }
                Err(error) => desk.no_answer(&text, error, None),
            }
        }
    }
    Ok(())
}

/// The block of an accepted sheet.
fn block(library: &mut Library, text: &[u8]) -> Result<String, Error> {
    let (run, holders) = library.report(text, BUDGET)?;
    let value = match run.outcome {
        Outcome::Done { value } => value.into(),
        _ => NO_VALUE,
    };
    let (outcome, steps) = (run.outcome.number(), run.steps);
    let mut lines = format!("verdict=0\nline=0\noutcome={outcome}\nsteps={steps}\nvalue={value}\n");
    for (holder, held) in holders {
        let _ = write!(lines, "holder={holder}");
        for object in held {
            let _ = write!(lines, ",{object}");
        }
        lines += "\n";
    }
    Ok(lines)
}
