//! Verdicts and stretches by rules for devices that are wrong in one point:
//! each gives another answer for some sheet.

use generator::{device, sheet, ROTATION};
use second::Sheet;

type Verdict = (u32, u32);
/// What a rule says of a text.
type Rule = fn(&[u8]) -> Verdict;

fn right(text: &[u8]) -> Verdict {
    match second::verdict(text) {
        Ok(()) => (0, 0),
        Err(refusal) => (refusal.number(), refusal.line),
    }
}

/// The sheet up to main, with another main, if it can be read so far.
fn head(text: &[u8]) -> Option<Sheet> {
    let text = std::str::from_utf8(text).ok()?;
    let (head, _) = text.split_once("\nmain=")?;
    let head = format!("{head}\nmain=1\nget=0\n");
    second::read(head.as_bytes()).ok()
}

/// The first device's line whose form is wrong by keeping a value, or by
/// being pure, as far as these are asked for.
fn wrong_line(sheet: &Sheet, keeping: bool, pure: bool) -> Option<u32> {
    let mut devices = sheet.devices.iter();
    let wrong = devices.find(|device| {
        let form = &sheet.forms[usize::from(device.form)];
        let resource = sheet.rows[usize::from(form.row)].resource;
        (keeping && !form.keeps.is_empty()) || (pure && !resource)
    });
    wrong.map(|device| device.line)
}

/// A wrong device is refused on its line before what this verdict tells.
fn before(text: &[u8], verdict: impl Fn(u32) -> bool) -> Verdict {
    let right = right(text);
    let wrong = head(text).and_then(|sheet| wrong_line(&sheet, true, true));
    match wrong {
        Some(line) if verdict(right.0) => (14, line),
        _ => right,
    }
}

fn told_at_reading(text: &[u8]) -> Verdict {
    before(text, |number| (3..=10).contains(&number))
}

fn told_before_the_forms(text: &[u8]) -> Verdict {
    before(text, |number| (8..=10).contains(&number))
}

/// The verdict where one of the two kinds of wrong devices is right. Where
/// none is left, main is taken to be right.
fn told_of(text: &[u8], keeping: bool, pure: bool) -> Verdict {
    match (right(text), head(text)) {
        ((14, _), Some(sheet)) => {
            let line = wrong_line(&sheet, keeping, pure);
            line.map_or((0, 0), |line| (14, line))
        }
        (right, _) => right,
    }
}

fn pure_is_right(text: &[u8]) -> Verdict {
    told_of(text, true, false)
}

fn keeping_is_right(text: &[u8]) -> Verdict {
    told_of(text, false, true)
}

fn eight_are_too_many(text: &[u8]) -> Verdict {
    match head(text) {
        Some(sheet) if sheet.devices.len() == 8 => (4, sheet.devices[0].line - 1),
        _ => right(text),
    }
}

/// The line of `devices` is taken for a torn one.
fn devices_are_unknown(text: &[u8]) -> Verdict {
    match head(text) {
        Some(sheet) if !sheet.devices.is_empty() => (3, sheet.devices[0].line - 1),
        _ => right(text),
    }
}

/// Main's first lines may not name the devices' slots.
fn devices_fill_no_slot(text: &[u8]) -> Verdict {
    let Ok(sheet) = second::read(text) else {
        return right(text);
    };
    let loose = (0..).zip(&sheet.main).find(|(filled, placed)| {
        let mut beyond = *filled..100;
        beyond.any(|slot| placed.instruction.names(slot))
    });
    loose.map_or_else(|| right(text), |(_, placed)| (7, placed.line))
}

/// Nothing is judged of devices.
fn never_told(text: &[u8]) -> Verdict {
    told_of(text, false, false)
}

const RULES: [(&str, Rule); 8] = [
    ("told at reading", told_at_reading),
    ("told before the forms", told_before_the_forms),
    ("pure is right", pure_is_right),
    ("keeping is right", keeping_is_right),
    ("eight are too many", eight_are_too_many),
    ("devices are unknown", devices_are_unknown),
    ("devices fill no slot", devices_fill_no_slot),
    ("never told", never_told),
];

#[test]
fn wrong_verdicts_are_told_apart() {
    let mut counts = [0; RULES.len()];
    for index in (0..100 * ROTATION).filter(|index| index % ROTATION >= 22) {
        let text = sheet(53, index);
        for (count, (_, rule)) in counts.iter_mut().zip(RULES) {
            *count += u32::from(rule(&text) != right(&text));
        }
    }
    for ((name, _), count) in RULES.iter().zip(counts) {
        assert!(count >= 5, "{name}: {count}");
    }
}

/// The last form's lines up to main.
fn up_to_main(text: &[u8], sheet: &Sheet) -> Option<Vec<u8>> {
    let first = sheet.forms.last()?.line;
    let main = sheet.main[0].line - 1;
    let lines = (1..).zip(text.split_inclusive(|byte| *byte == b'\n'));
    let own = lines.filter(|(place, _)| (first..main).contains(place));
    Some(own.flat_map(|(_, line)| line.to_vec()).collect())
}

#[test]
fn a_stretch_up_to_main_is_told_apart() {
    let (mut same, mut other) = (0, 0);
    for index in 0..200 {
        for text in [device(54, index), sheet(54, index)] {
            let Ok(sheet) = second::read(&text) else {
                continue;
            };
            let Some(wrong) = up_to_main(&text, &sheet) else {
                continue;
            };
            let part = second::form(&text, sheet.forms.len() - 1).expect("the last form");
            assert_eq!(part == wrong, sheet.devices.is_empty(), "index {index}");
            same += u32::from(part == wrong);
            other += u32::from(part != wrong);
        }
    }
    assert!(same > 50 && other > 200, "{same} same, {other} other");
}
