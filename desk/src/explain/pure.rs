//! Refusals 8 and 14: forms that are not pure enough, or too pure.

use crate::finding::{at_number, Case, Finding};
use crate::reading::{Place, Shape};
use crate::words::{counted, row};

/// A pure row's form with a field, or with a resource among its kept rows.
pub fn form(case: &Case) -> Option<Finding> {
    let reading = &case.reading;
    match case.place()? {
        Place::Form(form) => {
            let number = reading.forms.get(form)?.row;
            let own = reading.rows.get(number)?;
            let is_field = |shape| matches!(shape, Shape::Field { .. });
            let field = own.members.iter().find(|member| is_field(member.shape))?;
            let label = format!(
                "{} has field {} ({}); a form of a pure row has no field",
                row(reading, number),
                field.name,
                case.cited(field.line)
            );
            let note = format!(
                "`type=1,{}` on line {} makes the row a resource",
                own.head.count, own.head.line
            );
            Some(at_number(&case.entry()?, 0, label)?.note(note))
        }
        Place::Keep(form, place) => {
            let own = reading.forms.get(form)?;
            let kept = own.keeps.get(place)?.row;
            let head = reading.rows.get(own.row)?.head;
            let label = format!(
                "form {form} is of {} and keeps pure rows alone, not {}",
                row(reading, own.row),
                row(reading, kept)
            );
            let note = format!(
                "`type=1,{}` on line {} makes row {} a resource",
                head.count, head.line, own.row
            );
            Some(at_number(&case.entry()?, 0, label)?.note(note))
        }
        _ => None,
    }
}

/// A device whose form keeps a value or is pure.
pub fn device(case: &Case) -> Option<Finding> {
    let Place::Device(device) = case.place()? else {
        return None;
    };
    let reading = &case.reading;
    let number = reading.devices.get(device)?.form;
    let form = reading.forms.get(number)?;
    let mut faults = Vec::new();
    if form.head.count > 0 {
        let values = counted(form.head.count, "value");
        faults.push(format!("keeps {values} ({})", case.cited(form.head.line)));
    }
    if !reading.rows.get(form.row)?.resource {
        faults.push(format!("is of {}", row(reading, form.row)));
    }
    if faults.is_empty() {
        return None;
    }
    let label = format!(
        "form {number} {}; a device is a resource that keeps nothing",
        faults.join(" and ")
    );
    let finding = at_number(&case.entry()?, 0, label)?;
    let fit = (0..reading.forms.len()).filter(|form| is_fit_for_device(case, *form));
    let fit: Vec<String> = fit.map(|form| form.to_string()).collect();
    Some(match fit.is_empty() {
        true => finding.note("no form of this sheet could be a device"),
        false => finding.note(format!("forms that could be a device: {}", fit.join(", "))),
    })
}

fn is_fit_for_device(case: &Case, number: usize) -> bool {
    let resource = case.reading.is_resource(number);
    let form = case.reading.forms.get(number);
    resource == Some(true) && form.is_some_and(|form| form.head.count == 0)
}
