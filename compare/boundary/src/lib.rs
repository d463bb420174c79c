//! The questions of the proved library, called as a terminal calls them, and
//! what a report, and the numbers that a result begins with, have to be by the
//! second program.

pub use lexondar::raw::*;
use second::authority::{authority_of, holders};
use second::machine::Machine;
use second::{Lack, Refusal};

/// A report's numbers: main's entry, then every resource object's.
pub fn entries(machine: &Machine) -> Vec<u16> {
    let mut numbers = Vec::new();
    for holder in holders(machine) {
        let held = authority_of(machine, holder.into()).expect("a holder");
        numbers.extend([holder, held.len() as u16]);
        numbers.extend(held);
    }
    numbers
}

/// What a result begins with: a refusal's number and line, and what is lacking.
pub fn four(refusal: Refusal) -> Four {
    let [lack, name] = lacking(refusal.lack());
    [refusal.number(), refusal.line, lack, name]
}

/// What is lacking, and the member's name.
pub fn lacking(lack: Option<Lack>) -> [u32; 2] {
    lack.map_or([0, 0], |lack| [lack.number(), lack.name().into()])
}
