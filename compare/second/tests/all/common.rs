//! What the tests share: the example sheets and small changes to them.

use second::authority::{authority_of, held_before};
use second::machine::Machine;
use second::{Lack, Outcome, Refusal, RunAnswer};

/// P, the clerk before a scale.
pub const CLERK: &[u8] = include_bytes!("../../../../examples/clerk.sheet");
/// L, a method that calls itself for ever.
pub const LOOP: &[u8] = include_bytes!("../../../../examples/stack-full.sheet");

/// A sheet written with ` / ` for its line breaks.
pub fn sheet(lines: &str) -> Vec<u8> {
    let mut text = lines.replace(" / ", "\n").into_bytes();
    text.push(b'\n');
    text
}

/// A sheet with the rows 0 pure empty, 1 resource empty and then the given
/// ones, and a main that typing would refuse.
pub fn rows_sheet(rows: &str) -> Vec<u8> {
    let count = 2 + rows.matches("type=").count();
    let text = format!("types={count} / type=0,0 / type=1,0 / {rows} / forms=0 / main=1 / get=0");
    sheet(&text)
}

/// The text with line `place`, counted from 1, exchanged.
pub fn with_line(text: &[u8], place: usize, line: &str) -> Vec<u8> {
    let text = std::str::from_utf8(text).expect("a sheet is plain text");
    let mut lines: Vec<&str> = text.lines().collect();
    lines[place - 1] = line;
    (lines.join("\n") + "\n").into_bytes()
}

/// Refusal number and line of a verdict; zeros if the sheet is accepted.
pub fn verdict(text: &[u8]) -> (u32, u32) {
    pair(second::verdict(text))
}

/// The line of a misfit and what is lacking.
pub fn misfit(text: &[u8]) -> Option<(u32, Lack)> {
    let refusal = second::verdict(text).err()?;
    Some((refusal.line, refusal.lack()?))
}

/// Refusal number and line of any answer; zeros if there is none.
pub fn pair<T>(answer: Result<T, Refusal>) -> (u32, u32) {
    match answer {
        Ok(_) => (0, 0),
        Err(refusal) => (refusal.number(), refusal.line),
    }
}

/// A run's answer in one piece.
pub fn run(text: &[u8], budget: u32) -> (Outcome, u32, u16, u16) {
    let RunAnswer {
        outcome,
        steps,
        value,
        objects,
    } = second::run(text, budget).expect("an accepted sheet");
    (outcome, steps, value, objects)
}

/// Rows 0, a resource without members, and 1, a resource with method 1; form
/// 0 of row 0, and then these.
pub fn caller(forms: &str, main: &str) -> Vec<u8> {
    let count = 1 + forms.matches("form=").count();
    let text = format!(
        "types=2 / type=1,0 / type=1,1 / def=1,0,0 / forms={count} / form=0,0 / {forms} / {main}"
    );
    sheet(&text)
}

/// Budget and holder, what it holds then, and what it held when every filled
/// slot and every kept value counted.
pub type Held<'a> = (u32, u32, &'a [u16], &'a [u16]);

/// Asks for the sets of an accepted sheet.
pub fn check_held(text: &[u8], cases: &[Held]) {
    assert_eq!(verdict(text), (0, 0));
    let sheet = second::read(text).expect("an accepted sheet");
    for (budget, holder, now, before) in cases {
        let mut machine = Machine::start(&sheet);
        machine.run(*budget);
        let held = authority_of(&machine, *holder);
        assert_eq!(held.as_deref(), Some(*now), "{budget}, {holder}");
        let held = held_before(&machine, *holder);
        assert_eq!(held.as_deref(), Some(*before), "{budget}, {holder}");
    }
}
