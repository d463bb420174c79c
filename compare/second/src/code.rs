//! Reading the instructions of a body or of main.

use crate::line::{Key, Line};
use crate::reader::Reader;
use crate::refusal::{Reason, Refusal};
use crate::sheet::{Code, Instruction, Placed, CODE_LIMIT, INSTRUCTION_LIMIT, NAME_LIMIT};

const INSTRUCTION_KEYS: [Key; 5] = [Key::New, Key::Call, Key::Get, Key::Put, Key::Copy];

/// Reads a `body` or `main` line and its instructions; `filled` slots are
/// filled before the first of them.
pub(crate) fn read_code(reader: &mut Reader, head: Key, filled: u16) -> Result<Code, Refusal> {
    let line = reader.lines.take(&[head])?;
    let count = line.numbers[0];
    if !(1..=CODE_LIMIT).contains(&count) {
        return line.refuse(Reason::OverMeasure);
    }
    reader.instructions += usize::from(count);
    if reader.instructions > INSTRUCTION_LIMIT {
        return line.refuse(Reason::OverMeasure);
    }
    let mut code = Vec::new();
    for done in 0..count {
        let line = reader.lines.take(&INSTRUCTION_KEYS)?;
        let instruction = instruction_of(&line);
        check(&instruction, reader.form_count, filled + done, &line)?;
        code.push(Placed {
            instruction,
            line: line.place,
        });
    }
    Ok(code)
}

fn instruction_of(line: &Line) -> Instruction {
    let numbers = &line.numbers;
    match line.key {
        Key::New => Instruction::New {
            form: numbers[0],
            slots: numbers[1..].to_vec(),
        },
        Key::Call => Instruction::Call {
            slot: numbers[0],
            name: numbers[1],
            argument: numbers[2],
        },
        Key::Get => Instruction::Get { name: numbers[0] },
        Key::Put => Instruction::Put {
            name: numbers[0],
            slot: numbers[1],
        },
        // The reader asks for instruction keys only; `copy` is the last.
        _ => Instruction::Copy { slot: numbers[0] },
    }
}

/// Names in their limit (4), then forms and slots that exist (7).
fn check(instruction: &Instruction, forms: u16, filled: u16, line: &Line) -> Result<(), Refusal> {
    let (name, form, slots): (Option<u16>, Option<u16>, Vec<u16>) = match instruction {
        Instruction::New { form, slots } => (None, Some(*form), slots.clone()),
        Instruction::Call {
            slot,
            name,
            argument,
        } => (Some(*name), None, vec![*slot, *argument]),
        Instruction::Get { name } => (Some(*name), None, vec![]),
        Instruction::Put { name, slot } => (Some(*name), None, vec![*slot]),
        Instruction::Copy { slot } => (None, None, vec![*slot]),
    };
    if name.is_some_and(|name| name > NAME_LIMIT) {
        return line.refuse(Reason::OverMeasure);
    }
    if form.is_some_and(|form| form >= forms) || slots.iter().any(|slot| *slot >= filled) {
        return line.refuse(Reason::LooseEnd);
    }
    Ok(())
}
