//! `desk run`: what a run comes to.

use super::{budget, Command, BUDGET_CHOICE};
use crate::args::{Given, Usage};
use crate::desk::Desk;
use crate::follow::forms;
use crate::line::lines;
use crate::reader::read;
use crate::reading::Reading;
use crate::words::{counted, kind};
use lexondar::{Outcome, Run};

pub const COMMAND: Command = Command {
    word: "run",
    takes: "FILE",
    about: "run a sheet and say how that ended",
    more: "",
    choices: &[BUDGET_CHOICE],
    examples: &[
        ("desk run clerk.sheet", "to its end, or for 10,000 steps"),
        ("desk run clerk.sheet --budget 7", "for 7 steps"),
    ],
    run,
};

fn run(given: &Given, desk: &mut Desk) -> Result<(), Usage> {
    let [file] = given.exactly("a file")?;
    let budget = budget(given, u32::MAX)?;
    if let Some(text) = desk.text(file) {
        match desk.library.run(&text.bytes, budget) {
            Ok(run) => {
                let reading = read(&lines(&text.bytes));
                desk.put(&format!("{}\n", outcome(&run)));
                desk.put(&value(&reading, &run));
                desk.put(&format!("{}\n", counted(run.objects.into(), "object")));
            }
            Err(error) => desk.no_answer(&text, error, None),
        }
    }
    Ok(())
}

/// How a run ended, and after how many steps.
pub fn ended(run: &Run) -> String {
    let outcome = match run.outcome {
        Outcome::Done { .. } => "done",
        Outcome::Spent => "spent",
        Outcome::StoreFull => "store full",
        Outcome::StackFull => "stack full",
    };
    format!("{outcome} after {}", counted(run.steps as usize, "step"))
}

/// How a run ended, with why it did not go on.
pub fn outcome(run: &Run) -> String {
    let why = match run.outcome {
        Outcome::Done { .. } => "",
        Outcome::Spent => ": the budget is used up",
        Outcome::StoreFull => ": the next step is a `new`, with 256 objects there",
        Outcome::StackFull => ": the next step is a `call`, with 64 frames there",
    };
    format!("{}{why}", ended(run))
}

/// A finished run's value, with the form of that object if the lines tell it.
fn value(reading: &Reading, run: &Run) -> String {
    let Outcome::Done { value } = run.outcome else {
        return String::new();
    };
    let form = forms(reading, run).and_then(|forms| forms.get(usize::from(value)).copied());
    let about = form.and_then(|form| {
        let resource = reading.is_resource(form)?;
        Some(format!(" (form {form}, {})", kind(resource)))
    });
    format!("value: object {value}{}\n", about.unwrap_or_default())
}
