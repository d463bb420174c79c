//! The lines of a sheet on which values go to declared places: kept places,
//! arguments, fields and body results.

use second::sheet::{Form, Instruction, Kind, Member, Part, Placed, Row};
use second::Sheet;
use std::cmp::Ordering;

/// Where a value goes.
#[derive(Clone, Copy, Debug, PartialEq, Eq)]
pub enum Place {
    /// A kept place of a new object, counted from 0.
    Kept(usize),
    Argument,
    /// A field that is set.
    Field,
    /// A field that starts as a kept value.
    Start,
    Result,
}

/// A value: its own row and the row that is declared where it goes.
#[derive(Clone, Copy, Debug)]
pub struct Value {
    pub place: Place,
    pub given: u16,
    pub asked: u16,
}

/// What goes where on a line, in the order in which it is judged.
#[derive(Clone, Debug)]
pub struct Passing {
    /// The slots of a `new` against the kept values of its form.
    pub count: Ordering,
    pub values: Vec<Value>,
}

impl Passing {
    fn of(values: Vec<Value>) -> Passing {
        Passing {
            count: Ordering::Equal,
            values,
        }
    }

    fn add(&mut self, place: Place, given: u16, asked: u16) {
        self.values.push(Value {
            place,
            given,
            asked,
        });
    }
}

/// An `init` line: its form, the kept value and the field's row.
pub struct Start<'a> {
    pub own: &'a Form,
    pub kept: u16,
    pub asked: u16,
    pub line: u32,
}

impl Start<'_> {
    /// What goes where if the field starts as this kept value.
    pub fn passing(&self, kept: u16) -> Passing {
        Passing::of(vec![Value {
            place: Place::Start,
            given: self.own.keeps[usize::from(kept)].row,
            asked: self.asked,
        }])
    }
}

/// An instruction's line and what is known before it.
pub struct Scene<'a> {
    pub own: Option<&'a Form>,
    /// The name of the method whose body it is in.
    pub name: Option<u16>,
    /// The rows of the filled slots.
    pub slots: Vec<u16>,
    /// The result row of the body whose last line this is.
    pub result: Option<u16>,
    pub placed: &'a Placed,
}

impl Scene<'_> {
    /// What goes where if this instruction stands here, and the row of the
    /// slot that it fills; none if it names a part that is not there.
    pub fn passing(&self, sheet: &Sheet, instruction: &Instruction) -> Option<(Passing, u16)> {
        let at = |slot: &u16| self.slots[usize::from(*slot)];
        let field = |name: &u16| row(sheet, self.own?.row).field(*name);
        let mut passing = Passing::of(Vec::new());
        let filled = match instruction {
            Instruction::New { form, slots } => {
                let form = &sheet.forms[usize::from(*form)];
                passing.count = slots.len().cmp(&form.keeps.len());
                for (place, (slot, keep)) in slots.iter().zip(&form.keeps).enumerate() {
                    passing.add(Place::Kept(place), at(slot), keep.row);
                }
                form.row
            }
            Instruction::Call {
                slot,
                name,
                argument,
            } => {
                let (asked, result) = row(sheet, at(slot)).method(*name)?;
                passing.add(Place::Argument, at(argument), asked);
                result
            }
            Instruction::Get { name } => field(name)?,
            Instruction::Put { name, slot } => {
                let asked = field(name)?;
                passing.add(Place::Field, at(slot), asked);
                asked
            }
            Instruction::Copy { slot } => at(slot),
        };
        if let Some(asked) = self.result {
            passing.add(Place::Result, filled, asked);
        }
        Some((passing, filled))
    }
}

fn row(sheet: &Sheet, number: u16) -> &Row {
    &sheet.rows[usize::from(number)]
}

/// Every form with each of its row's members and the part for it.
fn parts(sheet: &Sheet) -> impl Iterator<Item = (&Form, &Member, &Part)> {
    sheet.forms.iter().flat_map(|form| {
        let members = &row(sheet, form.row).members;
        let parts = members.iter().zip(&form.parts);
        parts.map(move |(member, part)| (form, member, part))
    })
}

/// The `init` lines.
pub fn starts(sheet: &Sheet) -> Vec<Start<'_>> {
    let start = |(own, member, part): (_, &Member, _)| match (member.kind, part) {
        (Kind::Field { row: asked }, &Part::Init { kept, line }) => Some(Start {
            own,
            kept,
            asked,
            line,
        }),
        _ => None,
    };
    parts(sheet).filter_map(start).collect()
}

/// The instructions. A body, or main, ends here before a line that names a
/// part that is not there.
pub fn scenes(sheet: &Sheet) -> Vec<Scene<'_>> {
    let mut scenes = Vec::new();
    for (form, member, part) in parts(sheet) {
        if let (Kind::Method { argument, result }, Part::Body(code)) = (member.kind, part) {
            let mut slots = vec![form.row, argument];
            slots.extend(form.keeps.iter().map(|keep| keep.row));
            let own = Some((form, member.name));
            add_scenes(sheet, (own, slots, Some(result)), code, &mut scenes);
        }
    }
    let devices = sheet.devices.iter();
    let slots = devices.map(|device| sheet.forms[usize::from(device.form)].row);
    add_scenes(
        sheet,
        (None, slots.collect(), None),
        &sheet.main,
        &mut scenes,
    );
    scenes
}

/// Adds a body's or main's instructions, with its own form and method, the
/// slots that are filled at its start and the row of its result.
fn add_scenes<'a>(
    sheet: &'a Sheet,
    (own, mut slots, result): (Option<(&'a Form, u16)>, Vec<u16>, Option<u16>),
    code: &'a [Placed],
    scenes: &mut Vec<Scene<'a>>,
) {
    for (place, placed) in code.iter().enumerate() {
        let scene = Scene {
            own: own.map(|own| own.0),
            name: own.map(|own| own.1),
            slots: slots.clone(),
            result: result.filter(|_| place + 1 == code.len()),
            placed,
        };
        let Some((_, filled)) = scene.passing(sheet, &placed.instruction) else {
            return;
        };
        scenes.push(scene);
        slots.push(filled);
    }
}

/// What goes where on each line that has a value, with the line's place.
pub fn passings(sheet: &Sheet) -> Vec<(u32, Passing)> {
    let starts = starts(sheet).into_iter();
    let starts = starts.map(|start| (start.line, start.passing(start.kept)));
    let scenes = scenes(sheet).into_iter().filter_map(|scene| {
        let (passing, _) = scene.passing(sheet, &scene.placed.instruction)?;
        Some((scene.placed.line, passing))
    });
    starts.chain(scenes).collect()
}
