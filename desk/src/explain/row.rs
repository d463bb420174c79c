//! Refusals 5 and 6: the members of a row.

use crate::finding::{at_number, Case, Finding};
use crate::reading::{Place, Row};
use crate::words::span;

/// A name that is not above the one before.
pub fn order(case: &Case) -> Option<Finding> {
    let Place::Member(row, place) = case.place()? else {
        return None;
    };
    let members = &case.reading.rows.get(row)?.members;
    let (own, before) = (members.get(place)?, members.get(place.checked_sub(1)?)?);
    let cited = case.cited(before.line);
    let label = match own.name == before.name {
        true => format!("name {} stands twice in row {row} ({cited})", own.name),
        false => format!(
            "name {} comes after name {} ({cited}); the names in a row ascend",
            own.name, before.name
        ),
    };
    let finding = at_number(&case.entry()?, 0, label)?;
    Some(match members.iter().find(|m| m.name > own.name) {
        Some(above) => finding.note(format!("this line belongs before line {}", above.line)),
        None => finding.note(format!(
            "the least name that may stand here is {}",
            before.name + 1
        )),
    })
}

/// A row that is there already.
pub fn twin(case: &Case) -> Option<Finding> {
    let rows = &case.reading.rows;
    let (own, earlier) = rows.split_last()?;
    let twin = earlier.iter().position(|row| is_twin(row, own))?;
    let number = earlier.len();
    let label = format!(
        "row {number} ({}) has the kind and members of row {twin} ({})",
        place(own),
        place(&earlier[twin])
    );
    let line = case.line()?;
    let note = format!("name row {twin} wherever row {number} is meant, or change a member");
    Some(Finding::at(0..line.bytes.len(), label).note(note))
}

fn is_twin(a: &Row, b: &Row) -> bool {
    let members = |row: &Row| -> Vec<_> {
        let members = row.members.iter();
        members.map(|member| (member.name, member.shape)).collect()
    };
    a.resource == b.resource && members(a) == members(b)
}

/// The lines of a row.
fn place(row: &Row) -> String {
    let lines = span(row.head.line, row.last_line());
    match row.head.line == row.last_line() {
        true => format!("line {lines}"),
        false => format!("lines {lines}"),
    }
}
