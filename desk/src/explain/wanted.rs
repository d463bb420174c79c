//! What a place of a sheet wants.

use crate::finding::Case;
use crate::key::Key;
use crate::reading::{Owner, Place, Shape};
use crate::words::{counted, member};

/// The keys that a place wants, and why it wants them.
pub fn wanted(case: &Case, place: Place) -> Option<(Vec<Key>, String)> {
    let reading = &case.reading;
    let (keys, why) = match place {
        Place::Types => (vec![Key::Types], "a sheet begins with it".into()),
        Place::Row(row) => {
            let types = reading.types?;
            let cited = case.cited(types.line);
            let why = format!("row {row} comes next ({cited})");
            (vec![Key::Type], why)
        }
        Place::Member(row, place) => {
            let head = reading.rows.get(row)?.head;
            let members = counted(head.count, "member");
            let why = format!(
                "row {row} has {members} ({}), and this is number {}",
                case.cited(head.line),
                place + 1
            );
            (vec![Key::Def, Key::Var], why)
        }
        Place::Forms => {
            let types = reading.types?;
            let why = format!("all rows are there ({})", case.cited(types.line));
            (vec![Key::Forms], why)
        }
        Place::Form(form) => {
            let formed = reading.formed?;
            let cited = case.cited(formed.line);
            let why = format!("form {form} comes next ({cited})");
            (vec![Key::Form], why)
        }
        Place::Keep(form, place) => {
            let head = reading.forms.get(form)?.head;
            let kept = counted(head.count, "value");
            let why = format!(
                "form {form} keeps {kept} ({}), and this is number {}",
                case.cited(head.line),
                place + 1
            );
            (vec![Key::Keep], why)
        }
        Place::Part(form, part) => return part_wanted(case, form, part),
        _ => return later(case, place),
    };
    Some((keys, why))
}

/// A field wants `init`, a method `body`.
fn part_wanted(case: &Case, form: usize, part: usize) -> Option<(Vec<Key>, String)> {
    let own = case.reading.member(form, part)?;
    let row = case.reading.forms.get(form)?.row;
    let key = match own.shape {
        Shape::Field { .. } => Key::Init,
        Shape::Method { .. } => Key::Body,
    };
    let why = format!(
        "form {form} is of row {row}, whose next member is {} ({})",
        member(own),
        case.cited(own.line)
    );
    Some((vec![key], why))
}

/// What stands behind the forms, and instructions.
fn later(case: &Case, place: Place) -> Option<(Vec<Key>, String)> {
    let reading = &case.reading;
    Some(match place {
        Place::Devices => {
            let formed = reading.formed?;
            let why = format!("all forms are there ({})", case.cited(formed.line));
            (vec![Key::Main, Key::Devices], why)
        }
        Place::Device(device) => {
            let head = reading.equipped?;
            let cited = case.cited(head.line);
            let why = format!("device {device} comes next ({cited})");
            (vec![Key::Device], why)
        }
        Place::Main => {
            let head = reading.equipped?;
            let why = format!("all devices are there ({})", case.cited(head.line));
            (vec![Key::Main], why)
        }
        Place::Instr(owner, place) => {
            let head = reading.code(owner)?.head;
            let whose = match owner {
                Owner::Main => "main",
                Owner::Body { .. } => "the body",
            };
            let instructions = counted(head.count, "instruction");
            let why = format!(
                "{whose} has {instructions} ({}), and this is number {}",
                case.cited(head.line),
                place + 1
            );
            (Key::INSTRUCTIONS.to_vec(), why)
        }
        _ => return None,
    })
}

/// Keys as they are named: `` `def` or `var` ``.
pub fn named(keys: &[Key]) -> String {
    let words: Vec<String> = keys.iter().map(|key| format!("`{}`", key.word())).collect();
    crate::words::joined(&words, "or")
}
