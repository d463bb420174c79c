//! `desk form`: a form's own lines.

use super::Command;
use crate::args::{short, Given, Usage};
use crate::desk::Desk;
use crate::line::lines;
use crate::reader::read;
use crate::words::below;

pub const COMMAND: Command = Command {
    word: "form",
    takes: "FILE F",
    about: "show the lines of form F as they stand in the sheet",
    more: "The sheet only has to be readable. Forms count from 0.",
    choices: &[],
    examples: &[("desk form clerk.sheet 2", "the clerk's lines")],
    run,
};

fn run(given: &Given, desk: &mut Desk) -> Result<(), Usage> {
    let [file, form] = given.exactly("a file and a form's number")?;
    let form = short(form, "F")?;
    if let Some(text) = desk.text(file) {
        match desk.library.form(&text.bytes, form.into()) {
            Ok(lines) => desk.put_bytes(lines),
            Err(error) => {
                let forms = read(&lines(&text.bytes)).forms.len();
                desk.no_answer(&text, error, Some(below(forms, "form")));
            }
        }
    }
    Ok(())
}
