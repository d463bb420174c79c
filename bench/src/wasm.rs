//! A sheet as a WebAssembly module: a body is a function, a slot a local, an
//! object 17 numbers in memory. Its export runs main a number of times and gives
//! the number of main's last object.

use second::sheet::{Code, Instruction, Part, Row};
use second::Sheet;
use std::fmt::Write;

/// Names of a row are below this.
const NAMES: usize = 64;
/// Bytes of an object: where its bodies begin in the table, its kept values
/// and its fields.
const OBJECT: usize = 4 * 17;

fn kept_at(place: usize) -> usize {
    4 * (1 + place)
}

fn field_at(place: usize) -> usize {
    4 * (9 + place)
}

/// The module's text.
pub fn module(sheet: &Sheet, runs: u32) -> String {
    let mut text = String::from("(module (type $m (func (param i32 i32) (result i32)))\n");
    text += "(memory 1) (global $next (mut i32) (i32.const 0))\n";
    let _ = writeln!(text, "(table {} funcref)", NAMES * sheet.forms.len());
    for (number, form) in sheet.forms.iter().enumerate() {
        let row = &sheet.rows[usize::from(form.row)];
        for (member, part) in row.members.iter().zip(&form.parts) {
            if let Part::Body(code) = part {
                let (name, kept) = (member.name, form.keeps.len());
                let index = NAMES * number + usize::from(name);
                let _ = writeln!(text, "(elem (i32.const {index}) $b{number}_{name})");
                let _ = write!(text, "(func $b{number}_{name} (type $m) (local");
                text += &" i32".repeat(kept + code.len());
                text += ")\n";
                for place in 0..kept {
                    let load = format!("(i32.load offset={} (local.get 0))", kept_at(place));
                    let _ = writeln!(text, "(local.set {} {load})", 2 + place);
                }
                text += &instructions(sheet, row, code, 2 + kept);
            }
        }
    }
    let locals = " i32".repeat(sheet.main.len());
    let _ = writeln!(text, "(func $main (result i32) (local{locals})");
    text += &instructions(sheet, &sheet.rows[0], &sheet.main, 0);
    text + &export(runs)
}

/// Runs main over and over, from an empty store each time.
fn export(runs: u32) -> String {
    let mut text = String::from("(func (export \"run\") (result i32) (local i32 i32)\n");
    text += "(block (loop\n";
    let _ = writeln!(
        text,
        "(br_if 1 (i32.ge_u (local.get 0) (i32.const {runs})))"
    );
    text += "(global.set $next (i32.const 0))\n(local.set 1 (call $main))\n";
    text += "(local.set 0 (i32.add (local.get 0) (i32.const 1)))\n(br 0)))\n";
    let _ = writeln!(text, "(i32.div_u (local.get 1) (i32.const {OBJECT}))))");
    text
}

/// The code of a body or of main, whose value is its last slot.
fn instructions(sheet: &Sheet, own: &Row, code: &Code, filled: usize) -> String {
    let mut text = String::new();
    for (place, placed) in code.iter().enumerate() {
        let value = match &placed.instruction {
            Instruction::New { form, slots } => {
                text += &creation(sheet, usize::from(*form), slots);
                format!("(i32.sub (global.get $next) (i32.const {OBJECT}))")
            }
            Instruction::Call {
                slot,
                name,
                argument,
            } => {
                let body = format!("(i32.add (i32.load (local.get {slot})) (i32.const {name}))");
                format!(
                    "(call_indirect (type $m) (local.get {slot}) (local.get {argument}) {body})"
                )
            }
            Instruction::Get { name } => {
                format!("(i32.load offset={} (local.get 0))", field(own, *name))
            }
            Instruction::Put { name, slot } => {
                let at = field(own, *name);
                let _ = writeln!(
                    text,
                    "(i32.store offset={at} (local.get 0) (local.get {slot}))"
                );
                format!("(local.get {slot})")
            }
            Instruction::Copy { slot } => format!("(local.get {slot})"),
        };
        let _ = writeln!(text, "(local.set {} {value})", filled + place);
    }
    let _ = writeln!(text, "(local.get {}))", filled + code.len() - 1);
    text
}

/// Where the field of a name stands in an object of a row.
fn field(row: &Row, name: u16) -> usize {
    let fields = row.members.iter().filter(|m| row.field(m.name).is_some());
    let place = fields.take_while(|member| member.name < name).count();
    field_at(place)
}

/// Stores an object at the store's end, and moves the end.
fn creation(sheet: &Sheet, number: usize, slots: &[u16]) -> String {
    let form = &sheet.forms[number];
    let row = &sheet.rows[usize::from(form.row)];
    let mut text = format!(
        "(i32.store (global.get $next) (i32.const {}))\n",
        NAMES * number
    );
    let mut store = |at: usize, slot: u16| {
        let _ = writeln!(
            text,
            "(i32.store offset={at} (global.get $next) (local.get {slot}))"
        );
    };
    for (place, slot) in slots.iter().enumerate() {
        store(kept_at(place), *slot);
    }
    for (member, part) in row.members.iter().zip(&form.parts) {
        if let Part::Init { kept, .. } = part {
            store(field(row, member.name), slots[usize::from(*kept)]);
        }
    }
    text + &format!("(global.set $next (i32.add (global.get $next) (i32.const {OBJECT})))\n")
}
