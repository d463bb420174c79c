//! A sheet as a Lua program: a form is a class, a method a method, a slot a
//! local. It prints its seconds, the number of main's last object, and how many
//! objects a run made.

use second::sheet::{Code, Form, Instruction, Kind, Part, Row};
use second::Sheet;
use std::fmt::Write;

/// The program, which runs main `runs` times.
pub fn program(sheet: &Sheet, runs: u32) -> String {
    let mut text = String::from("local made = 0\n");
    for number in 0..sheet.forms.len() {
        let _ = writeln!(
            text,
            "local C{number} = {{}}\nC{number}.__index = C{number}"
        );
    }
    for (number, form) in sheet.forms.iter().enumerate() {
        let row = &sheet.rows[usize::from(form.row)];
        for (member, part) in row.members.iter().zip(&form.parts) {
            if let Part::Body(code) = part {
                let _ = writeln!(text, "function C{number}.m{}(v0, v1)", member.name);
                for kept in 0..form.keeps.len() {
                    let _ = writeln!(text, "local v{} = v0[{}]", 2 + kept, 1 + kept);
                }
                text += &instructions(sheet, code, 2 + form.keeps.len());
                text += "end\n";
            }
        }
    }
    text += "local function main()\n";
    text += &instructions(sheet, &sheet.main, 0);
    text += "end\nlocal last, start = nil, os.clock()\n";
    let _ = writeln!(text, "for i = 1, {runs} do made = 0 last = main() end");
    text + "print(os.clock() - start, last and last.number, made)\n"
}

/// A line for each instruction, and the last slot's return.
fn instructions(sheet: &Sheet, code: &Code, filled: usize) -> String {
    let mut text = String::new();
    for (place, placed) in code.iter().enumerate() {
        let slot = filled + place;
        let value = match &placed.instruction {
            Instruction::New { form, slots } => {
                text += "made = made + 1\n";
                creation(sheet, usize::from(*form), slots)
            }
            Instruction::Call {
                slot,
                name,
                argument,
            } => format!("v{slot}:m{name}(v{argument})"),
            Instruction::Get { name } => format!("v0.f{name}"),
            Instruction::Put { name, slot } => {
                let _ = writeln!(text, "v0.f{name} = v{slot}");
                format!("v{slot}")
            }
            Instruction::Copy { slot } => format!("v{slot}"),
        };
        let _ = writeln!(text, "local v{slot} = {value}");
    }
    let _ = writeln!(text, "return v{}", filled + code.len() - 1);
    text
}

/// A table of the class: its kept values, its fields and its number.
fn creation(sheet: &Sheet, number: usize, slots: &[u16]) -> String {
    let form: &Form = &sheet.forms[number];
    let row: &Row = &sheet.rows[usize::from(form.row)];
    let mut values: Vec<String> = slots.iter().map(|slot| format!("v{slot}")).collect();
    values.push("number = made - 1".into());
    for (member, part) in row.members.iter().zip(&form.parts) {
        if let (Kind::Field { .. }, Part::Init { kept, .. }) = (member.kind, part) {
            let slot = slots[usize::from(*kept)];
            values.push(format!("f{} = v{slot}", member.name));
        }
    }
    format!("setmetatable({{{}}}, C{number})", values.join(", "))
}
