//! The program's printed answers.

use crate::authority::{authority_of, holders};
use crate::fit::FitTold;
use crate::machine::Machine;
use crate::refusal::{Lack, Refusal};
use crate::{accepted, NO_REFUSAL};

/// The steps that the program allows a sheet.
pub const PROGRAM_BUDGET: u32 = 10_000;

/// Judges and runs a sheet; each line of the answer ends with byte 10.
pub fn print(text: &[u8]) -> String {
    let sheet = match accepted(text) {
        Ok(sheet) => sheet,
        Err(refusal) => return refusal_lines(refusal),
    };
    let mut machine = Machine::start(&sheet);
    let answer = machine.run(PROGRAM_BUDGET);
    let mut out = String::from(NO_REFUSAL);
    out += &format!("outcome={}\n", answer.outcome as u8);
    out += &format!("steps={}\n", answer.steps);
    out += &format!("value={}\n", answer.value);
    for holder in holders(&machine) {
        let held = authority_of(&machine, u32::from(holder)).unwrap_or_default();
        out += &holder_line(u32::from(holder), &held);
    }
    out
}

/// The two lines of a refusal.
pub fn refusal_lines(refusal: Refusal) -> String {
    format!("verdict={}\nline={}\n", refusal.number(), refusal.line)
}

/// The lines of a refusal in answer to a question: a misfit has a third,
/// which tells what is lacking.
pub fn question_lines(refusal: Refusal) -> String {
    let mut lines = refusal_lines(refusal);
    if let Some(lack) = refusal.lack() {
        lines += &format!("lack={}\n", lack_numbers(lack));
    }
    lines
}

/// The two lines of the fit question: its answer, and how many members of
/// row a were passed.
pub fn fit_lines(told: FitTold) -> String {
    let answer = match told.answer.lack() {
        None => String::from("1"),
        Some(lack) => format!("0,{}", lack_numbers(lack)),
    };
    format!("fit={answer}\npassed={}\n", told.passed)
}

/// The number of a lack, and a member's name after it.
fn lack_numbers(lack: Lack) -> String {
    match lack {
        Lack::Count | Lack::Kind => lack.number().to_string(),
        Lack::Member(name) => format!("{},{name}", lack.number()),
    }
}

/// A holder and its authority; the bare holder where that is empty.
pub fn holder_line(holder: u32, authority: &[u16]) -> String {
    let mut line = format!("holder={holder}");
    for object in authority {
        line += &format!(",{object}");
    }
    line + "\n"
}

/// The joined authority of a group; the bare key where that is empty.
pub fn group_line(authority: &[u16]) -> String {
    let mut line = String::from("group");
    for (place, object) in authority.iter().enumerate() {
        line.push(if place == 0 { '=' } else { ',' });
        line += &object.to_string();
    }
    line + "\n"
}
