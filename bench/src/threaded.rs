//! The threaded C interpreter's code, made from an accepted sheet, and its run.

use crate::answer::Answer;
use second::sheet::{Code, Form, Instruction, Kind, Part};
use second::{RunAnswer, Sheet};

/// Names of a row are below this.
const NAMES: usize = 64;
/// In bodies the own object and the argument come before the kept values.
const BEFORE_KEPT: usize = 2;

/// The handlers, in the order of `threaded_handlers` in C.
#[derive(Clone, Copy)]
enum Handler {
    Create,
    Call,
    Get,
    Put,
    Copy,
    GiveBack,
    Finish,
}

/// An instruction or the end of a body: `Unit` in C.
#[repr(C)]
struct Unit {
    handler: *const u8,
    fills: u16,
    numbers: [u16; 3],
}

/// What a `new` makes: `Creation` in C.
#[repr(C)]
struct Creation {
    bodies: u16,
    kept_count: u16,
    field_count: u16,
    kept: [u16; 8],
    fields: [u16; 8],
}

/// A run that is asked for: `Asked` in C.
#[repr(C)]
struct Asked {
    main: *const Unit,
    creations: *const Creation,
    bodies: *const *const Unit,
    budget: u32,
}

extern "C" {
    static threaded_handlers: [*const u8; 7];
    fn threaded_run(asked: *const Asked) -> Answer;
}

/// A sheet as the interpreter wants it. The bodies point at the units, so
/// these may not grow once it is made.
pub struct Program {
    units: Vec<Unit>,
    creations: Vec<Creation>,
    /// By form and name; null where there is no method.
    bodies: Vec<*const Unit>,
    main: usize,
}

impl Program {
    /// The table of an accepted sheet; no other may be run.
    pub fn of(sheet: &Sheet) -> Program {
        let mut program = Program {
            units: Vec::new(),
            creations: Vec::new(),
            bodies: vec![std::ptr::null(); sheet.forms.len() * NAMES],
            main: 0,
        };
        let mut starts = Vec::new();
        for (number, form) in sheet.forms.iter().enumerate() {
            let members = &sheet.rows[usize::from(form.row)].members;
            for (member, part) in members.iter().zip(&form.parts) {
                if let Part::Body(code) = part {
                    let place = number * NAMES + usize::from(member.name);
                    starts.push((place, program.units.len()));
                    let filled = BEFORE_KEPT + form.keeps.len();
                    program.add(sheet, Some(form), code, filled, Handler::GiveBack);
                }
            }
        }
        program.main = program.units.len();
        program.add(sheet, None, &sheet.main, 0, Handler::Finish);
        for (place, start) in starts {
            program.bodies[place] = &program.units[start];
        }
        program
    }

    /// Runs for at most `budget` steps.
    pub fn run(&self, budget: u32) -> RunAnswer {
        let asked = Asked {
            main: &self.units[self.main],
            creations: self.creations.as_ptr(),
            bodies: self.bodies.as_ptr(),
            budget,
        };
        // SAFETY: the sheet was accepted, so every slot, field and body that
        // the units name is there; one thread runs at a time.
        unsafe { threaded_run(&asked) }.told()
    }

    /// Adds a body, or main, that starts with `filled` filled slots.
    fn add(&mut self, sheet: &Sheet, own: Option<&Form>, code: &Code, filled: usize, end: Handler) {
        let field = |name: u16| own.map_or(0, |form| field_place(sheet, form, name));
        for (place, placed) in code.iter().enumerate() {
            let (handler, numbers) = match &placed.instruction {
                Instruction::New { form, slots } => {
                    self.creations.push(creation(sheet, *form, slots));
                    let last = self.creations.len() as u16 - 1;
                    (Handler::Create, [last, 0, 0])
                }
                Instruction::Call {
                    slot,
                    name,
                    argument,
                } => (Handler::Call, [*slot, *name, *argument]),
                Instruction::Get { name } => (Handler::Get, [field(*name), 0, 0]),
                Instruction::Put { name, slot } => (Handler::Put, [field(*name), *slot, 0]),
                Instruction::Copy { slot } => (Handler::Copy, [*slot, 0, 0]),
            };
            self.units.push(unit(handler, filled + place, numbers));
        }
        let value = (filled + code.len() - 1) as u16;
        self.units.push(unit(end, 0, [value, 0, 0]));
    }
}

fn unit(handler: Handler, fills: usize, numbers: [u16; 3]) -> Unit {
    Unit {
        // SAFETY: C writes the list once, before anything runs.
        handler: unsafe { threaded_handlers[handler as usize] },
        fills: fills as u16,
        numbers,
    }
}

/// A field's place among the fields of its form.
fn field_place(sheet: &Sheet, form: &Form, name: u16) -> u16 {
    let members = &sheet.rows[usize::from(form.row)].members;
    let lower = members.iter().filter(|member| member.name < name);
    let fields = lower.filter(|member| matches!(member.kind, Kind::Field { .. }));
    fields.count() as u16
}

/// What a `new` of this form with these slots makes.
fn creation(sheet: &Sheet, number: u16, slots: &[u16]) -> Creation {
    let mut made = Creation {
        bodies: number * NAMES as u16,
        kept_count: slots.len() as u16,
        field_count: 0,
        kept: [0; 8],
        fields: [0; 8],
    };
    made.kept[..slots.len()].copy_from_slice(slots);
    for part in &sheet.forms[usize::from(number)].parts {
        if let Part::Init { kept, .. } = part {
            made.fields[usize::from(made.field_count)] = slots[usize::from(*kept)];
            made.field_count += 1;
        }
    }
    made
}
