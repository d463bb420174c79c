//! A plain reading of the sheet rules: reader, fit, a form's lines, verdict,
//! bounded run, authority of a holder or a group, the most steps of a sheet
//! that is sure to finish, and printed answer. Every question takes the
//! sheet's text.

#![forbid(unsafe_code)]

pub mod authority;
mod bound;
mod code;
pub mod fit;
mod line;
pub mod machine;
mod print;
mod reader;
mod refusal;
pub mod sheet;
mod stretch;
mod typing;

pub use authority::{GROUP_LIMIT, MAIN};
pub use fit::{FitAnswer, FitTold};
pub use machine::{Outcome, RunAnswer, NO_VALUE};
pub use print::{
    fit_lines, group_line, holder_line, print, question_lines, refusal_lines, PROGRAM_BUDGET,
};
pub use reader::read;
pub use refusal::{Lack, Reason, Refusal};
pub use sheet::Sheet;

/// The two lines that stand for an accepted sheet.
pub const NO_REFUSAL: &str = "verdict=0\nline=0\n";

/// Whether row a of the sheet fits row b, and if not, what it lacks; and how
/// many members of row a were passed to tell so. Stops after reading.
pub fn fit(text: &[u8], a: u32, b: u32) -> Result<FitTold, Refusal> {
    let sheet = read(text)?;
    let row = |number: u32| match u16::try_from(number) {
        Ok(row) if usize::from(row) < sheet.rows.len() => Ok(row),
        _ => Err(Refusal::at(Reason::LooseEnd, 0)),
    };
    let (a, b) = (row(a)?, row(b)?);
    let table = fit::FitTable::of(&sheet.rows);
    Ok(table.told(&sheet.rows, a, b))
}

/// The lines of a form: the stretch of the text itself in which they stand.
/// Stops after reading. Forms count from 0.
pub fn form(text: &[u8], form: usize) -> Result<&[u8], Refusal> {
    read(text)?;
    let stretches = stretch::stretches(text);
    let stretch = stretches.get(form).copied();
    stretch.ok_or(Refusal::at(Reason::LooseEnd, 0))
}

/// Reads and judges a sheet.
pub fn verdict(text: &[u8]) -> Result<(), Refusal> {
    accepted(text).map(|_| ())
}

/// Runs an accepted sheet for at most `budget` steps.
pub fn run(text: &[u8], budget: u32) -> Result<RunAnswer, Refusal> {
    let sheet = accepted(text)?;
    let mut machine = machine::Machine::start(&sheet);
    Ok(machine.run(budget))
}

/// The authority of a holder after the run, ascending.
pub fn authority(text: &[u8], budget: u32, holder: u32) -> Result<Vec<u16>, Refusal> {
    let sheet = accepted(text)?;
    let mut machine = machine::Machine::start(&sheet);
    machine.run(budget);
    authority::authority_of(&machine, holder).ok_or(Refusal::at(Reason::NoHolder, 0))
}

/// The joined authority of the listed holders after the run, ascending.
pub fn group(text: &[u8], budget: u32, holders: &[u32]) -> Result<Vec<u16>, Refusal> {
    let sheet = accepted(text)?;
    let mut machine = machine::Machine::start(&sheet);
    machine.run(budget);
    authority::group_of(&machine, holders).ok_or(Refusal::at(Reason::NoHolder, 0))
}

/// The most steps that an accepted sheet can need, if its bodies call lower
/// names only.
pub fn bound(text: &[u8]) -> Result<u32, Refusal> {
    let sheet = accepted(text)?;
    bound::bound(&sheet)
}

/// The table of a sheet that passes the refusals 2 to 10 and 14.
fn accepted(text: &[u8]) -> Result<Sheet, Refusal> {
    let sheet = read(text)?;
    typing::judge(&sheet)?;
    Ok(sheet)
}
