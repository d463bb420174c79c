//! What accepted sheets make use of, so that a report can tell whether
//! every kind of subtyping and of receiver occurs, and which cases of misfit
//! refused sheets have.

use crate::cases::{cases, CASES};
use crate::walk::passings;
use second::authority::is_resource;
use second::fit::FitTable;
use second::machine::Machine;
use second::sheet::{Instruction, Row};
use second::{Outcome, Sheet};

/// Sheets in which each thing occurs.
pub const NAMES: [&str; 7] = [
    "extra members",
    "wider arguments",
    "narrower results",
    "pure for resource",
    "field set or read",
    "pure maker",
    "pure caller",
];

/// Which of the things occur in an accepted sheet.
pub fn census(sheet: &Sheet) -> [bool; 7] {
    let mut found = [false; 7];
    let row = |number: u16| &sheet.rows[usize::from(number)];
    for (_, passing) in passings(sheet) {
        for value in passing.values {
            compare(row(value.given), row(value.asked), &mut found);
        }
    }
    look_at_run(sheet, &mut found);
    found
}

/// In what the row of a value differs from the row that was asked for.
fn compare(given: &Row, asked: &Row, found: &mut [bool; 7]) {
    found[0] |= given.members.len() > asked.members.len();
    found[3] |= !given.resource && asked.resource;
    for member in &asked.members {
        if let (Some(own), Some(other)) = (given.method(member.name), asked.method(member.name)) {
            found[1] |= own.0 != other.0;
            found[2] |= own.1 != other.1;
        }
    }
}

/// Follows the first steps of a run.
fn look_at_run(sheet: &Sheet, found: &mut [bool; 7]) {
    let mut machine = Machine::start(sheet);
    for budget in 1..400 {
        let (objects, frames) = (machine.objects.len(), machine.frames.len());
        let receiver = machine.frames[frames - 1].receiver;
        let pure = receiver.is_some_and(|receiver| !is_resource(&machine, receiver));
        let next = machine.next().map(|placed| &placed.instruction);
        found[4] |= matches!(
            next,
            Some(Instruction::Get { .. } | Instruction::Put { .. })
        );
        if machine.run(budget).outcome != Outcome::Spent {
            break;
        }
        found[5] |= pure && machine.objects.len() > objects;
        found[6] |= pure && machine.frames.len() > frames;
    }
}

/// How many misfits are of each case: the only one of their line, and one
/// of several.
#[derive(Clone, Debug, PartialEq, Eq)]
pub struct Misfits {
    pub counts: [[u64; 2]; CASES.len()],
}

impl Default for Misfits {
    fn default() -> Misfits {
        Misfits {
            counts: [[0; 2]; CASES.len()],
        }
    }
}

impl Misfits {
    /// Counts the cases of the line for which a sheet is refused.
    pub fn add(&mut self, sheet: &Sheet, line: u32) {
        let fit = FitTable::of(&sheet.rows);
        let passings = passings(sheet).into_iter();
        for (_, passing) in passings.filter(|passing| passing.0 == line) {
            let (cases, several) = cases(&sheet.rows, &fit, &passing);
            for case in cases {
                self.counts[case as usize][usize::from(several)] += 1;
            }
        }
    }

    /// The cases that can be and that no misfit is of.
    pub fn missing(&self) -> Vec<String> {
        let mut missing = Vec::new();
        for ((_, name, company), counts) in CASES.iter().zip(&self.counts) {
            let ways = ["alone", "beside others"].iter().zip(company).zip(counts);
            for ((way, can_be), count) in ways {
                if *can_be && *count == 0 {
                    missing.push(format!("misfit by {name} {way}"));
                }
            }
        }
        missing
    }

    /// A line for each case.
    pub fn lines(&self) -> String {
        let counts = CASES.iter().zip(&self.counts);
        let line = |((_, name, _), [alone, several]): (&(_, &str, _), &[u64; 2])| {
            format!("misfit by {name}: {alone} alone, {several} beside others\n")
        };
        counts.map(line).collect()
    }
}
