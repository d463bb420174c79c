//! The lines of forms: what the sheets have for this question, and what
//! every answer obeys.

use generator::{device, mill, readable, sheet};
use second::sheet::{Form, Instruction, Part, FORM_LIMIT};
use second::{form, read, verdict, Reason, Refusal, Sheet};
use std::collections::BTreeSet;

/// How many lines make a form long here.
const LONG: usize = 50;

/// The lines of a form, written anew from the table.
fn written(form: &Form) -> String {
    let mut text = format!("form={},{}\n", form.row, form.keeps.len());
    for keep in &form.keeps {
        text += &format!("keep={}\n", keep.row);
    }
    for part in &form.parts {
        match part {
            Part::Init { kept, .. } => text += &format!("init={kept}\n"),
            Part::Body(code) => {
                text += &format!("body={}\n", code.len());
                for placed in code {
                    text += &instruction_line(&placed.instruction);
                }
            }
        }
    }
    text
}

fn instruction_line(instruction: &Instruction) -> String {
    match instruction {
        Instruction::New { form, slots } => {
            let slots: String = slots.iter().map(|slot| format!(",{slot}")).collect();
            format!("new={form}{slots}\n")
        }
        Instruction::Call {
            slot,
            name,
            argument,
        } => format!("call={slot},{name},{argument}\n"),
        Instruction::Get { name } => format!("get={name}\n"),
        Instruction::Put { name, slot } => format!("put={name},{slot}\n"),
        Instruction::Copy { slot } => format!("copy={slot}\n"),
    }
}

/// How many sheets have what the question needs.
#[derive(Debug, Default)]
struct Seen {
    readable: usize,
    ill_typed: usize,
    /// Different sheets with no form, with 1, with 2 and with all 64.
    counts: [BTreeSet<Vec<u8>>; 4],
    /// Sheets with a form of one line, and with a long one.
    short: usize,
    long: usize,
    /// Sheets whose first form has several lines, and whose last has one.
    first_wide: usize,
    last_short: usize,
    /// Sheets with two forms of the same lines, and of the same several.
    twins: usize,
    wide_twins: usize,
    /// Refused sheets whose fault stands after a `form` line.
    late: usize,
}

impl Seen {
    fn of(make: fn(u64, u64) -> Vec<u8>, seed: u64, count: u64) -> Seen {
        let mut seen = Seen::default();
        for index in 0..count {
            let text = make(seed, index);
            match read(&text) {
                Ok(sheet) => seen.add(text, &sheet),
                Err(refusal) => seen.late += usize::from(is_late(&text, refusal)),
            }
        }
        seen
    }

    fn add(&mut self, text: Vec<u8>, sheet: &Sheet) {
        let mut forms = Vec::from_iter(sheet.forms.iter().map(written));
        self.readable += 1;
        self.ill_typed += usize::from(verdict(&text).is_err());
        let is_wide = |form: &String| form.lines().count() > 1;
        let is_long = |form: &String| form.lines().count() >= LONG;
        self.short += usize::from(!forms.iter().all(is_wide));
        self.long += usize::from(forms.iter().any(is_long));
        self.first_wide += usize::from(forms.first().is_some_and(is_wide));
        self.last_short += usize::from(forms.last().is_some_and(|last| !is_wide(last)));
        let counts = [0, 1, 2, usize::from(FORM_LIMIT)];
        if let Some(place) = counts.iter().position(|count| *count == forms.len()) {
            self.counts[place].insert(text);
        }
        self.twins += usize::from(has_twins(&forms));
        forms.retain(is_wide);
        self.wide_twins += usize::from(has_twins(&forms));
    }
}

fn has_twins(forms: &[String]) -> bool {
    BTreeSet::from_iter(forms).len() < forms.len()
}

/// Whether a `form` line stands before the line at fault.
fn is_late(text: &[u8], refusal: Refusal) -> bool {
    let mut lines = text.split(|byte| *byte == b'\n').zip(1..refusal.line);
    lines.any(|(line, _)| line.starts_with(b"form="))
}

fn check(seed: u64, reached: &[(&str, usize, usize)]) {
    for (name, count, least) in reached {
        assert!(count >= least, "seed {seed}: {count} {name}");
    }
}

#[test]
fn the_rotation_reaches_most_of_it() {
    for seed in [1, 2, 3] {
        let seen = Seen::of(sheet, seed, 1_500);
        check(
            seed,
            &[
                ("readable", seen.readable, 850),
                ("ill typed", seen.ill_typed, 100),
                ("without a form", seen.counts[0].len(), 1),
                ("with one form", seen.counts[1].len(), 45),
                ("with two forms", seen.counts[2].len(), 45),
                ("with all forms", seen.counts[3].len(), 3),
                ("with a short form", seen.short, 850),
                ("with a long form", seen.long, 65),
                ("with a short last form", seen.last_short, 85),
                ("with twins", seen.twins, 275),
                ("with twins of several lines", seen.wide_twins, 95),
                ("refused after a form", seen.late, 250),
            ],
        );
    }
}

/// Few or all forms in many ways, and a first form of several lines.
#[test]
fn the_readable_sheets_reach_the_rest() {
    for seed in [1, 2, 3] {
        let seen = Seen::of(readable, seed, 500);
        assert_eq!(seen.readable, 500);
        check(
            seed,
            &[
                ("ill typed", seen.ill_typed, 490),
                ("without a form", seen.counts[0].len(), 65),
                ("with one form", seen.counts[1].len(), 65),
                ("with two forms", seen.counts[2].len(), 65),
                ("with all forms", seen.counts[3].len(), 65),
                ("with a short form", seen.short, 120),
                ("with a long form", seen.long, 45),
                ("with a wide first form", seen.first_wide, 300),
                ("with a short last form", seen.last_short, 30),
                ("with twins of several lines", seen.wide_twins, 150),
            ],
        );
    }
}

#[test]
fn the_seed_and_the_index_decide_a_readable_sheet() {
    assert_eq!(readable(5, 6), readable(5, 6));
    assert_ne!(readable(5, 6), readable(5, 7));
    assert_ne!(readable(5, 6), readable(6, 6));
}

/// Where the forms must begin by the line numbers that reading noted, and
/// last where the line after them does.
fn starts(text: &[u8], sheet: &Sheet) -> Vec<usize> {
    let start = |line: u32| {
        let lines = text.split_inclusive(|byte| *byte == b'\n');
        lines.take(line as usize - 1).map(<[u8]>::len).sum()
    };
    let devices = sheet.devices.first().map(|device| device.line);
    let after = devices.unwrap_or(sheet.main[0].line) - 1;
    let forms = sheet.forms.iter().map(|form| form.line);
    forms.chain([after]).map(start).collect()
}

/// Asks for every form of a text and for some that are not there, and tells
/// how many were answered.
fn ask(text: &[u8]) -> usize {
    let sheet = match read(text) {
        Ok(sheet) => sheet,
        Err(refusal) => {
            for number in [0, 1, usize::MAX] {
                assert_eq!(form(text, number), Err(refusal));
            }
            return 0;
        }
    };
    let starts = starts(text, &sheet);
    for (number, own) in sheet.forms.iter().enumerate() {
        let part = form(text, number).expect("a form of a sheet that reads");
        assert_eq!(part, written(own).as_bytes(), "form {number}");
        let place = &text[starts[number]..starts[number + 1]];
        assert!(std::ptr::eq(part, place), "form {number}");
    }
    let count = sheet.forms.len();
    for number in [count, count + 1, usize::MAX] {
        assert_eq!(form(text, number), Err(Refusal::at(Reason::LooseEnd, 0)));
    }
    count
}

#[test]
fn forms_stand_where_reading_found_them() {
    let mut answered = 0;
    for index in 0..1_000 {
        answered += ask(&sheet(17, index));
    }
    for index in 0..100 {
        answered += ask(&mill(17, index)) + ask(&readable(17, index));
        answered += ask(&device(17, index));
    }
    assert!(answered > 8_000, "{answered} forms were asked for");
}
