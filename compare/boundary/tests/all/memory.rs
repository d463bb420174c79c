//! The library called from C by its header: its answers are those that Rust
//! gets, and a memory checker sees no step outside a buffer and no answer that
//! rests on what was never written.

use crate::c_driver::{compiled, stored};
use boundary::{authority, bound, fit, form, group, report, run, verdict};
use boundary::{Begins, AUTHORITY, GROUP, REPORT, WORK};
use std::process::Command;

fn sheet(index: u64) -> Vec<u8> {
    match index % 4 {
        0 => generator::mill(93, index),
        1 => generator::strict(93, index / 4),
        2 => generator::device(93, index),
        _ => generator::sheet(93, index),
    }
}

/// The sum that the program in C makes of all answers.
#[derive(Default)]
struct Sum(u64);

impl Sum {
    fn add(&mut self, number: u32) {
        self.0 = self.0.wrapping_mul(31).wrapping_add(number.into());
    }

    /// A result: the four numbers that it begins with, and its other fields.
    fn add_fields(&mut self, result: &impl Begins, fields: &[u32]) {
        let all = result.four().into_iter().chain(fields.iter().copied());
        all.for_each(|field| self.add(field));
    }

    fn add_result(&mut self, result: &[u16]) {
        result.iter().for_each(|number| self.add((*number).into()));
    }

    /// What `ask_groups` adds: main and the first objects, one member more
    /// each time.
    fn add_groups(&mut self, (text, budget): (&[u8], u32), work: &mut [u16], held: &mut [u16]) {
        let numbers = (0..=GROUP as u16).map(|i| if i % 2 == 0 { 256 } else { i / 2 });
        let list: Vec<u16> = numbers.collect();
        for members in 0..=list.len() {
            let g = group(text, budget, &list[..members], work, held);
            self.add_fields(&g, &[g.count]);
            self.add_result(&held[..g.count as usize]);
        }
    }

    /// What `ask_forms` adds.
    fn add_forms(&mut self, text: &[u8], work: &mut [u16]) {
        for number in 0..4 {
            let g = form(text, number, work);
            self.add_fields(&g, &[g.start as u32, g.length as u32]);
            let part = &text[g.start..g.start + g.length];
            let ends = part.first().into_iter().chain(part.last());
            ends.for_each(|byte| self.add((*byte).into()));
        }
    }

    /// What `judge`, `ask_bound` and `ask` add, in their order.
    fn add_sheet(&mut self, text: &[u8]) {
        let (mut work, mut held, mut all) = (vec![7; WORK], vec![7; AUTHORITY], vec![7; REPORT]);
        let g = verdict(text, &mut work);
        self.add_fields(&g, &[]);
        let g = bound(text, &mut work);
        self.add_fields(&g, &[g.steps]);
        for budget in [0, 300] {
            let g = fit(text, 1, 0, &mut work);
            self.add_fields(&g, &[g.fits, g.passed]);
            self.add_forms(text, &mut work);
            let g = run(text, budget, &mut work);
            self.add_fields(&g, &[g.outcome, g.steps, g.value, g.objects]);
            let g = authority(text, budget, 256, &mut work, &mut held);
            self.add_fields(&g, &[g.count]);
            self.add_result(&held[..g.count as usize]);
            self.add_groups((text, budget), &mut work, &mut held);
            let g = report(text, budget, &mut work, &mut all);
            self.add_fields(&g, &[g.outcome, g.steps, g.value, g.objects, g.count]);
            self.add_result(&all[..g.count as usize]);
        }
    }
}

#[test]
fn c_gets_the_same_answers_and_the_memory_checker_has_no_complaint_on_300_sheets() {
    let sheets: Vec<Vec<u8>> = (0..300).map(sheet).collect();
    let mut sum = Sum::default();
    for text in &sheets {
        sum.add_sheet(text);
    }
    let program = compiled(&["sweep"], &["-g", "-O1"]);
    let sheets = stored("sweep.sheets", &sheets);
    let plain = Command::new(&program).arg(&sheets).output();
    let plain = plain.expect("the program runs");
    assert!(plain.status.success(), "{:?}", plain.status);
    assert_eq!(plain.stdout, format!("{}\n", sum.0).into_bytes());
    let checked = Command::new("valgrind")
        .args(["--quiet", "--error-exitcode=9"])
        .arg(&program)
        .arg(&sheets)
        .output()
        .expect("valgrind is there");
    let complaints = String::from_utf8_lossy(&checked.stderr);
    assert!(checked.status.success(), "{complaints}");
    assert!(complaints.is_empty(), "{complaints}");
    assert_eq!(checked.stdout, plain.stdout);
}
