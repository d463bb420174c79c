//! Whether the C interpreters deserve to be yardsticks: their answers are those
//! of the second program.

use crate::{plain, threaded};
use second::machine::Machine;
use second::Outcome;

/// How many sheets of each kind are run.
const SHEETS: u32 = 3_000;
/// A sheet that does not end in this number of steps is taken for endless.
const LONG: u32 = 100_000;

/// Compares the answers on generated sheets at budgets around each sheet's
/// step count and at some others; tells what was reached. The interpreters know
/// no devices.
pub fn check() {
    let mut outcomes = [0; 4];
    for kind in [generator::sheet, generator::mill] {
        let texts = (0..).map(|index| kind(61, index));
        let plain = |text: &[u8]| second::read(text).is_ok_and(|sheet| sheet.devices.is_empty());
        let accepted = texts.filter(|text| plain(text) && second::verdict(text).is_ok());
        for text in accepted.take(SHEETS as usize) {
            compare(&text, &mut outcomes);
        }
    }
    assert!(outcomes.iter().all(|count| *count > 0), "{outcomes:?}");
    let [done, spent, store, stack] = outcomes;
    println!(
        "The C interpreters answer as the second program on {} sheets: \
         {done} runs done, {spent} spent, {store} with a full store, {stack} with a full stack.\n",
        2 * SHEETS
    );
}

fn compare(text: &[u8], outcomes: &mut [u32; 4]) {
    let sheet = second::read(text).expect("an accepted sheet");
    let plain = plain::Program::of(&sheet);
    let threaded = threaded::Program::of(&sheet);
    let whole = Machine::start(&sheet).run(LONG);
    let most = match whole.outcome {
        Outcome::Spent => LONG,
        _ => u32::MAX,
    };
    let near = whole.steps;
    let around = [near / 2, near.saturating_sub(1), near, near + 1];
    for budget in around.into_iter().chain([0, 1, 2, 7, 65, 66, 10_000, most]) {
        let wanted = Machine::start(&sheet).run(budget);
        assert_eq!(plain.run(budget), wanted, "budget {budget}");
        assert_eq!(threaded.run(budget), wanted, "budget {budget}");
        outcomes[wanted.outcome as usize] += 1;
    }
}
