//! Refusal 9: no such method or field.

use crate::finding::{at_number, Case, Finding};
use crate::reading::{Op, Owner, Shape};
use crate::words::row;

/// A method that the slot's row has not, or a field that the own object has
/// not.
pub fn member(case: &Case) -> Option<Finding> {
    let (owner, place) = case.instr()?;
    let instr = case.reading.code(owner)?.instrs.get(place)?;
    match instr.op {
        Op::Call { slot, name, .. } => {
            let number = case.slots().get(slot)?.row?;
            let label = format!(
                "slot {slot} has {}, which has no method {name}",
                row(&case.reading, number)
            );
            Some(at_number(&case.entry()?, 1, label)?.note(there(case, number, name, true)?))
        }
        Op::Get { name } | Op::Put { name, .. } => field(case, owner, name),
        _ => None,
    }
}

fn field(case: &Case, owner: Owner, name: u16) -> Option<Finding> {
    let Owner::Body { form, .. } = owner else {
        let line = case.line()?;
        let label = "main has no own object, and so no field to read or set";
        let note = "only the bodies of an object reach its fields: call a method of it";
        return Some(Finding::at(0..line.word()?.len(), label).note(note));
    };
    let number = case.reading.forms.get(form)?.row;
    let own = row(&case.reading, number);
    let label = format!("the own object has {own}, which has no field {name}");
    Some(at_number(&case.entry()?, 0, label)?.note(there(case, number, name, false)?))
}

/// The methods or the fields that a row has, and whether the name is one of the
/// others.
fn there(case: &Case, number: usize, name: u16, methods: bool) -> Option<String> {
    let row = case.reading.rows.get(number)?;
    let (wanted, other) = match methods {
        true => ("method", "field"),
        false => ("field", "method"),
    };
    if let Some(member) = row.member(name) {
        return Some(format!(
            "{name} is a {other} there ({})",
            case.cited(member.line)
        ));
    }
    let is_method = |shape| matches!(shape, Shape::Method { .. });
    let fitting = row.members.iter().filter(|m| is_method(m.shape) == methods);
    let names: Vec<String> = fitting
        .map(|m| format!("{} (line {})", m.name, m.line))
        .collect();
    Some(match names.is_empty() {
        true => format!("row {number} has no {wanted}s"),
        false => format!("{wanted}s of row {number}: {}", names.join(", ")),
    })
}
