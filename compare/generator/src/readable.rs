//! Sheets that can be read, whatever typing says of them: any number of
//! forms, in any order, and twins among them.

use crate::devices::{device_lines, pick_devices};
use crate::draft::{line, Draft, Line};
use crate::plan::write_rows;
use crate::rng::Rng;
use crate::rows::make_rows;
use crate::style::{Style, ALL};
use second::sheet::{Kind, Row, FORM_LIMIT, INSTRUCTION_LIMIT, NAME_LIMIT};

/// A sheet whose forms and code are drawn without a look at what fits.
pub fn readable(rng: &mut Rng) -> Draft {
    let style = rng.pick(&ALL);
    let (rows, _) = make_rows(rng, &style);
    let any = rng.between(0, usize::from(FORM_LIMIT));
    let count = rng.pick(&[0, 1, 2, usize::from(FORM_LIMIT), any]);
    let main = rng.between(1, style.main);
    let mut draft = write_rows(&rows);
    draft.push(line("forms", &[count as u32]));
    draft.extend(make_forms(rng, &rows, &style, count, INSTRUCTION_LIMIT - main).concat());
    let devices = match count > 0 && rng.chance(40) {
        true => pick_devices(rng, &Vec::from_iter(0..count as u16)),
        false => Vec::new(),
    };
    draft.extend(device_lines(&devices));
    draft.push(line("main", &[main as u32]));
    draft.extend(make_code(rng, main, devices.len(), count));
    draft
}

/// `count` forms with at most `left` instructions, some of them twins.
fn make_forms(
    rng: &mut Rng,
    rows: &[Row],
    style: &Style,
    count: usize,
    mut left: usize,
) -> Vec<Draft> {
    let mut forms: Vec<Draft> = Vec::new();
    while forms.len() < count {
        let mut form = match forms.len() {
            made if made > 0 && rng.chance(20) => forms[rng.below(made)].clone(),
            _ => make_form(rng, rows, style, count),
        };
        if instructions(&form) > left {
            // Row 0 has no members.
            form = vec![line("form", &[0, 0])];
        }
        left -= instructions(&form);
        forms.push(form);
    }
    forms
}

/// How many instructions the bodies of a form have.
fn instructions(form: &Draft) -> usize {
    let bodies = form.iter().filter(|line| line.key == "body");
    bodies.map(|line| line.numbers[0] as usize).sum()
}

/// A form of any row, for a sheet with this many forms.
fn make_form(rng: &mut Rng, rows: &[Row], style: &Style, forms: usize) -> Draft {
    let number = rng.below(rows.len());
    let row = &rows[number];
    // A field starts as a kept value, so there must be one.
    let keeps = rng.between(usize::from(row.has_field()), style.keeps);
    let mut form = vec![line("form", &[number as u32, keeps as u32])];
    for _ in 0..keeps {
        form.push(line("keep", &[rng.below(rows.len()) as u32]));
    }
    for member in &row.members {
        if let Kind::Field { .. } = member.kind {
            form.push(line("init", &[rng.below(keeps) as u32]));
        } else {
            let count = rng.between(1, style.body);
            form.push(line("body", &[count as u32]));
            form.extend(make_code(rng, count, 2 + keeps, forms));
        }
    }
    form
}

/// `count` instructions after `filled` slots.
fn make_code(rng: &mut Rng, count: usize, filled: usize, forms: usize) -> Draft {
    let places = filled..filled + count;
    places
        .map(|filled| make_instruction(rng, filled, forms))
        .collect()
}

/// Any instruction that names filled slots and forms of the sheet.
fn make_instruction(rng: &mut Rng, filled: usize, forms: usize) -> Line {
    let name = rng.below(usize::from(NAME_LIMIT) + 1) as u32;
    let kind = rng.below(5);
    let given = rng.below(9).min(filled);
    let mut slot = || rng.below(filled) as u32;
    match kind {
        0 if filled > 0 => line("call", &[slot(), name, slot()]),
        1 if filled > 0 => line("put", &[name, slot()]),
        2 if filled > 0 => line("copy", &[slot()]),
        3 if forms > 0 => {
            let slots: Vec<u32> = (0..given).map(|_| slot()).collect();
            let form = rng.below(forms) as u32;
            line("new", &[&[form], &slots[..]].concat())
        }
        _ => line("get", &[name]),
    }
}
