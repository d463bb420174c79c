//! The sheets that are one call away from strict: which call it is, where it
//! stands, and what stands besides.

use crate::common::{against, bound};
use generator::{strict, STRICT_ROTATION};
use second::sheet::Instruction;
use second::Sheet;

/// The second half of each round is one call away.
fn strays(seed: u64, rounds: u64) -> impl Iterator<Item = Vec<u8>> {
    let kinds = STRICT_ROTATION / 2..STRICT_ROTATION;
    let indexes = (0..rounds).flat_map(move |round| {
        let kinds = kinds.clone();
        kinds.map(move |kind| round * STRICT_ROTATION + kind)
    });
    indexes.map(move |index| strict(seed, index))
}

/// How many strays are of each kind.
#[derive(Debug, Default)]
struct Seen {
    alone: u32,
    several: u32,
    own: u32,
    next: u32,
    higher: u32,
    first_body: u32,
    last_body: u32,
    idle: u32,
    fault_before: u32,
    fault_after: u32,
    strict: u32,
}

impl Seen {
    fn add(&mut self, text: &[u8]) {
        let sheet = second::read(text).expect("a sheet that can be read");
        let calls = against(text);
        let Some(call) = calls.first() else {
            self.strict += 1;
            return;
        };
        self.alone += u32::from(calls.len() == 1);
        self.several += u32::from(calls.len() > 1);
        match call.called - call.own {
            0 => self.own += 1,
            1 => self.next += 1,
            _ => self.higher += 1,
        }
        let (first, last) = around(text, call.line);
        self.first_body += u32::from(first);
        self.last_body += u32::from(last);
        self.idle += u32::from(is_idle(&sheet, call.line));
        match bound(text) {
            Err((12, line)) => assert_eq!(line, call.line),
            Err((8..=10, line)) => {
                // The fault may itself be such a call.
                self.fault_before += u32::from(calls.iter().any(|call| call.line > line));
                self.fault_after += u32::from(call.line < line);
            }
            answer => panic!("{answer:?}, but a call on line {}", call.line),
        }
    }
}

/// Whether the line stands in the first body of the text, and in the last.
fn around(text: &[u8], line: u32) -> (bool, bool) {
    let text = std::str::from_utf8(text).expect("plain text");
    let bodies = |(_, words): &(u32, &str)| words.starts_with("body=");
    let heads: Vec<u32> = (1..)
        .zip(text.lines())
        .filter(bodies)
        .map(|(line, _)| line)
        .collect();
    let before = heads.iter().filter(|head| **head < line).count();
    (before == 1, before == heads.len())
}

/// Whether no `new` or `device` names the form in which the line stands.
fn is_idle(sheet: &Sheet, line: u32) -> bool {
    let own = sheet.forms.iter().rposition(|form| form.line < line);
    let bodies = sheet.forms.iter().flat_map(|form| &form.parts);
    let bodies = bodies.filter_map(|part| match part {
        second::sheet::Part::Body(code) => Some(code),
        second::sheet::Part::Init { .. } => None,
    });
    let is_own = |form: u16| Some(usize::from(form)) == own;
    let mut all = bodies.chain([&sheet.main]).flatten();
    let made = all.any(|placed| match placed.instruction {
        Instruction::New { form, .. } => is_own(form),
        _ => false,
    });
    !made && !sheet.devices.iter().any(|device| is_own(device.form))
}

#[test]
fn strays_are_of_every_kind() {
    let mut seen = Seen::default();
    for text in strays(27, 120) {
        seen.add(&text);
    }
    assert!(seen.strict < 20, "{seen:?}");
    assert!(seen.alone > 500 && seen.several > 60, "{seen:?}");
    assert!(
        seen.own > 150 && seen.next > 80 && seen.higher > 80,
        "{seen:?}"
    );
    assert!(seen.first_body > 80 && seen.last_body > 80, "{seen:?}");
    assert!(seen.idle > 60, "{seen:?}");
    assert!(seen.fault_before > 60 && seen.fault_after > 60, "{seen:?}");
}
