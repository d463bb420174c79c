//! The plain C interpreter's table, made from an accepted sheet, and its run.

use crate::answer::Answer;
use second::sheet::{Code, Instruction, Kind, Part as SheetPart};
use second::{RunAnswer, Sheet};

/// Names of a row are below this.
const NAMES: usize = 64;

/// `Line` in C: an operation's code, how many numbers, and nine.
#[repr(C)]
#[derive(Clone, Copy, Default)]
struct Line {
    operation: u16,
    count: u16,
    numbers: [u16; 9],
}

/// `Part` in C: a body, or the kept value that a field starts as.
#[repr(C)]
#[derive(Clone, Copy, Default)]
struct Part {
    is_body: u16,
    first: u16,
    count: u16,
}

/// `Form` in C.
#[repr(C)]
#[derive(Clone, Copy, Default)]
struct Form {
    row: u16,
    kept_count: u16,
    part_count: u16,
    keeps: [u16; 8],
    parts: [Part; 8],
}

/// `Table` in C.
#[repr(C)]
struct Table {
    lines: *const Line,
    forms: *const Form,
    places: *const u16,
    main_first: u32,
    main_count: u32,
}

extern "C" {
    fn plain_run(table: *const Table, budget: u32) -> Answer;
}

/// A sheet as the interpreter wants it.
pub struct Program {
    lines: Vec<Line>,
    forms: Vec<Form>,
    /// By form and name: a method's part, or a field's place.
    places: Vec<u16>,
    main: (usize, usize),
}

impl Program {
    /// The table of an accepted sheet; no other may be run.
    pub fn of(sheet: &Sheet) -> Program {
        let mut program = Program {
            lines: Vec::new(),
            forms: Vec::new(),
            places: vec![0; sheet.forms.len() * NAMES],
            main: (0, 0),
        };
        for number in 0..sheet.forms.len() {
            program.add_form(sheet, number);
        }
        program.main = program.add(&sheet.main);
        program
    }

    /// Runs for at most `budget` steps.
    pub fn run(&self, budget: u32) -> RunAnswer {
        let table = Table {
            lines: self.lines.as_ptr(),
            forms: self.forms.as_ptr(),
            places: self.places.as_ptr(),
            main_first: self.main.0 as u32,
            main_count: self.main.1 as u32,
        };
        // SAFETY: the sheet was accepted, so every slot, field and body that
        // the lines name is there; one thread runs at a time.
        unsafe { plain_run(&table, budget) }.told()
    }

    fn add_form(&mut self, sheet: &Sheet, number: usize) {
        let form = &sheet.forms[number];
        let members = &sheet.rows[usize::from(form.row)].members;
        let mut made = Form {
            row: form.row,
            kept_count: form.keeps.len() as u16,
            part_count: form.parts.len() as u16,
            ..Form::default()
        };
        let mut fields = 0;
        for (place, (member, part)) in members.iter().zip(&form.parts).enumerate() {
            let at = number * NAMES + usize::from(member.name);
            self.places[at] = match member.kind {
                Kind::Field { .. } => fields,
                _ => place as u16,
            };
            made.parts[place] = match part {
                SheetPart::Init { kept, .. } => {
                    fields += 1;
                    Part {
                        first: *kept,
                        ..Part::default()
                    }
                }
                SheetPart::Body(code) => {
                    let (first, count) = self.add(code);
                    Part {
                        is_body: 1,
                        first: first as u16,
                        count: count as u16,
                    }
                }
            };
        }
        self.forms.push(made);
    }

    /// Adds a body, or main: where it begins, and how many lines it has.
    fn add(&mut self, code: &Code) -> (usize, usize) {
        let first = self.lines.len();
        for placed in code.iter() {
            self.lines.push(line(&placed.instruction));
        }
        (first, code.len())
    }
}

fn line(instruction: &Instruction) -> Line {
    let mut numbers = [0; 9];
    let (operation, count) = match instruction {
        Instruction::New { form, slots } => {
            numbers[0] = *form;
            numbers[1..=slots.len()].copy_from_slice(slots);
            (0, 1 + slots.len())
        }
        Instruction::Call {
            slot,
            name,
            argument,
        } => {
            numbers[..3].copy_from_slice(&[*slot, *name, *argument]);
            (1, 3)
        }
        Instruction::Get { name } => {
            numbers[0] = *name;
            (2, 1)
        }
        Instruction::Put { name, slot } => {
            numbers[..2].copy_from_slice(&[*name, *slot]);
            (3, 2)
        }
        Instruction::Copy { slot } => {
            numbers[0] = *slot;
            (4, 1)
        }
    };
    Line {
        operation,
        count: count as u16,
        numbers,
    }
}
