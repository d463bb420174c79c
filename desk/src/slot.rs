//! The slots of a body or of main: what filled each, and its row.

use crate::reading::{Code, Op, Owner, Reading, Shape};

/// What filled a slot.
#[derive(Clone, Copy, Debug, PartialEq, Eq)]
pub enum Filler {
    Own,
    Argument,
    Kept(usize),
    Device(usize),
    /// An instruction.
    Instr,
}

/// A filled slot.
#[derive(Clone, Copy, Debug)]
pub struct Slot {
    pub filler: Filler,
    /// Its row, if the lines before say so.
    pub row: Option<usize>,
}

impl Slot {
    fn new(filler: Filler, row: Option<usize>) -> Slot {
        Slot { filler, row }
    }
}

/// The slots that are filled before an owner's first instruction.
pub fn given(reading: &Reading, owner: Owner) -> Vec<Slot> {
    match owner {
        Owner::Main => devices(reading),
        Owner::Body { form, part } => body(reading, form, part).unwrap_or_default(),
    }
}

fn devices(reading: &Reading) -> Vec<Slot> {
    let numbered = reading.devices.iter().enumerate();
    numbered
        .map(|(number, device)| {
            let form = reading.forms.get(device.form);
            Slot::new(Filler::Device(number), form.map(|form| form.row))
        })
        .collect()
}

fn body(reading: &Reading, form: usize, part: usize) -> Option<Vec<Slot>> {
    let Shape::Method { argument, .. } = reading.member(form, part)?.shape else {
        return None;
    };
    let form = reading.forms.get(form)?;
    let mut slots = vec![
        Slot::new(Filler::Own, Some(form.row)),
        Slot::new(Filler::Argument, Some(argument)),
    ];
    let kept = form.keeps.iter().enumerate();
    slots.extend(kept.map(|(place, keep)| Slot::new(Filler::Kept(place), Some(keep.row))));
    Some(slots)
}

/// The slots that are filled before an owner's instruction at this place.
pub fn filled(reading: &Reading, owner: Owner, place: usize) -> Vec<Slot> {
    let mut slots = given(reading, owner);
    let instrs = reading.code(owner).map(|code: &Code| &code.instrs[..]);
    for instr in instrs.unwrap_or_default().iter().take(place) {
        let row = row_of(reading, owner, &instr.op, &slots);
        slots.push(Slot::new(Filler::Instr, row));
    }
    slots
}

/// The row of the slot that an instruction fills.
pub fn row_of(reading: &Reading, owner: Owner, op: &Op, slots: &[Slot]) -> Option<usize> {
    match op {
        Op::New { form, .. } => Some(reading.forms.get(*form)?.row),
        Op::Call { slot, name, .. } => {
            let row = reading.rows.get(slots.get(*slot)?.row?)?;
            match row.member(*name)?.shape {
                Shape::Method { result, .. } => Some(result),
                Shape::Field { .. } => None,
            }
        }
        Op::Get { name } | Op::Put { name, .. } => field(reading, owner, *name),
        Op::Copy { slot } => slots.get(*slot)?.row,
    }
}

/// The row of the own object's field of this name.
pub fn field(reading: &Reading, owner: Owner, name: u16) -> Option<usize> {
    let Owner::Body { form, .. } = owner else {
        return None;
    };
    let row = reading.rows.get(reading.forms.get(form)?.row)?;
    match row.member(name)?.shape {
        Shape::Field { row } => Some(row),
        Shape::Method { .. } => None,
    }
}
