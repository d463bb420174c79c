//! Refusal 7: a row, form, kept value or slot that is not there.

use crate::finding::{at_number, Case, Finding};
use crate::key::Role;
use crate::reading::Place;
use crate::words::{below, slots};

/// The first number of the line that names what is not there.
pub fn missing(case: &Case) -> Option<Finding> {
    let entry = case.entry()?;
    let numbers = entry.numbers.iter().enumerate();
    let mut found = numbers.filter_map(|(place, number)| {
        let named = usize::from(number.value);
        let (label, note) = fault(case, entry.key.role(place)?, named)?;
        Some(at_number(&entry, place, label)?.noted(note))
    });
    found.next()
}

/// What is wrong with a number that names something, and what would do.
fn fault(case: &Case, role: Role, named: usize) -> Option<(String, Option<String>)> {
    let reading = &case.reading;
    match role {
        Role::Limited(..) => None,
        Role::LowerRow(word) => lower_row(case, word, named),
        Role::Row => none_such("row", named, reading.rows.len()),
        Role::Form => none_such("form", named, reading.formed?.count),
        Role::KeptValue => {
            let Place::Part(form, _) = case.place()? else {
                return None;
            };
            let count = reading.forms.get(form)?.head.count;
            let cited = case.cited(reading.forms.get(form)?.head.line);
            let there = below(count, "kept value");
            let label = format!("form {form} has no kept value {named} ({cited})");
            (named >= count).then_some((label, Some(there)))
        }
        Role::Slot(_) => {
            let filled = case.slots();
            let label = match named == filled.len() {
                true => format!("slot {named} is the one that this line fills"),
                false => format!("slot {named} is not filled yet"),
            };
            let note = format!("slots filled here: {}", slots(&filled));
            (named >= filled.len()).then_some((label, Some(note)))
        }
    }
}

/// A number that none of the things there have.
fn none_such(thing: &str, named: usize, count: usize) -> Option<(String, Option<String>)> {
    let label = format!("there is no {thing} {named}; {}", below(count, thing));
    (named >= count).then_some((label, None))
}

/// A member's row that is not lower than the member's own.
fn lower_row(case: &Case, word: &str, named: usize) -> Option<(String, Option<String>)> {
    let Place::Member(row, _) = case.place()? else {
        return None;
    };
    let count = case.reading.types?.count;
    let label = match named {
        _ if named < row => return None,
        _ if named >= count => format!("there is no row {named}; {}", below(count, "row")),
        _ if named == row => format!("the {word} is row {row} itself; it has to be a lower one"),
        _ => format!("the {word} is row {named}, which comes after row {row}"),
    };
    let note = match row {
        0 => "row 0 has no lower row to mention".into(),
        _ => format!("a member of row {row} mentions rows below {row} alone"),
    };
    Some((label, Some(note)))
}
