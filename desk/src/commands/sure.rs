//! `desk sure`: whether a sheet is sure to finish.

use super::Command;
use crate::args::{Given, Usage};
use crate::desk::Desk;
use crate::words::counted;

pub const COMMAND: Command = Command {
    word: "sure",
    takes: "FILE",
    about: "say the most steps that a run can need, or the call because of which there are none",
    more: "A sheet is sure to finish if each body calls only methods with names below its own. A run\n\
           with at least that budget is never spent; a full store or stack may still end it.",
    choices: &[],
    examples: &[("desk sure sure.sheet", "for a plant that bakes alone")],
    run,
};

fn run(given: &Given, desk: &mut Desk) -> Result<(), Usage> {
    let [file] = given.exactly("a file")?;
    if let Some(text) = desk.text(file) {
        match desk.library.bound(&text.bytes) {
            Ok(steps) => desk.put(&format!("at most {}\n", counted(steps as usize, "step"))),
            Err(error) => desk.refused(&text, error),
        }
    }
    Ok(())
}
