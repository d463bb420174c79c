//! What a line of a sheet means.

use crate::reading::{Instr, Op, Owner, Part, Place, Reading, Shape};
use crate::slot::{filled, given, row_of};
use crate::words::{counted, kind, member, slots};

/// How far a line is set in.
pub fn depth(place: Place) -> usize {
    match place {
        Place::Types | Place::Forms | Place::Devices | Place::Main | Place::End => 0,
        Place::Row(_) | Place::Form(_) | Place::Device(_) => 1,
        Place::Instr(Owner::Main, _) => 1,
        Place::Member(..) | Place::Keep(..) | Place::Part(..) => 2,
        Place::Instr(Owner::Body { .. }, _) => 3,
    }
}

/// What the line at a place means.
pub fn meaning(reading: &Reading, place: Place) -> Option<String> {
    Some(match place {
        Place::Types => counted(reading.types?.count, "row"),
        Place::Row(number) => {
            let row = reading.rows.get(number)?;
            let members = counted(row.head.count, "member");
            format!("row {number}: {}, {members}", kind(row.resource))
        }
        Place::Member(row, place) => {
            let own = reading.rows.get(row)?.members.get(place)?;
            match own.shape {
                Shape::Method { argument, result } => {
                    format!("{}: takes row {argument}, gives row {result}", member(own))
                }
                Shape::Field { row } => format!("{}: of row {row}", member(own)),
            }
        }
        Place::Forms => counted(reading.formed?.count, "form"),
        Place::Form(number) => {
            let form = reading.forms.get(number)?;
            let resource = kind(reading.is_resource(number)?);
            let kept = match form.head.count {
                0 => "nothing".into(),
                count => counted(count, "value"),
            };
            format!(
                "form {number}: of row {} ({resource}), keeps {kept}",
                form.row
            )
        }
        Place::Keep(form, place) => {
            let keep = reading.forms.get(form)?.keeps.get(place)?;
            let slot = place + 2;
            format!(
                "kept value {place}: row {}, slot {slot} in bodies",
                keep.row
            )
        }
        Place::Part(form, part) => part_meaning(reading, form, part)?,
        Place::Devices => counted(reading.equipped?.count, "device"),
        Place::Device(number) => {
            let form = reading.devices.get(number)?.form;
            let row = reading.forms.get(form)?.row;
            format!("object {number}, a device of form {form}: slot {number} of main, row {row}")
        }
        Place::Main => {
            let code = reading.main.as_ref()?;
            format!("main: {}", counted(code.head.count, "instruction"))
        }
        Place::Instr(owner, place) => instr_meaning(reading, owner, place)?,
        Place::End => return None,
    })
}

fn part_meaning(reading: &Reading, form: usize, part: usize) -> Option<String> {
    let own = reading.member(form, part)?;
    match reading.forms.get(form)?.parts.get(part)? {
        Part::Init { kept } => Some(format!("{}: starts as kept value {kept}", member(own))),
        Part::Body(code) => {
            let instructions = counted(code.head.count, "instruction");
            let given = slots(&given(reading, Owner::Body { form, part }));
            Some(format!("{}: {instructions}; slots {given}", member(own)))
        }
    }
}

fn instr_meaning(reading: &Reading, owner: Owner, place: usize) -> Option<String> {
    let code = reading.code(owner)?;
    let Instr { op, .. } = code.instrs.get(place)?;
    let slots = filled(reading, owner, place);
    let row = row_of(reading, owner, op, &slots);
    let row = row.map_or(String::new(), |row| format!(", row {row}"));
    let does = match op {
        Op::New { form, slots } if slots.is_empty() => format!("a new object of form {form}"),
        Op::New { form, slots } => {
            let slots: Vec<String> = slots.iter().map(usize::to_string).collect();
            let (s, slots) = (if slots.len() == 1 { "" } else { "s" }, slots.join(", "));
            format!("a new object of form {form} that keeps slot{s} {slots}")
        }
        Op::Call {
            slot,
            name,
            argument,
        } => format!("method {name} of slot {slot}, with slot {argument}"),
        Op::Get { name } => format!("the own field {name}"),
        Op::Put { name, slot } => format!("slot {slot}, to which the own field {name} is set"),
        Op::Copy { slot } => format!("slot {slot}"),
    };
    let last = match (place + 1 == code.head.count, owner) {
        (true, Owner::Main) => "; main's value",
        (true, Owner::Body { .. }) => "; the result",
        (false, _) => "",
    };
    Some(format!("slot {}{row}: {does}{last}", slots.len()))
}
