//! The run against the second program.

use crate::common::{is_left_clean, noise, CLERK};
use crate::refused::{run_of, NONE, SHORT};
use boundary::{four, run, RunResult, WORK};
use second::machine::Machine;
use second::{Outcome, Refusal, RunAnswer, Sheet};

/// A sheet that does not end in this number of steps is taken for endless, and
/// gets no larger budget.
const LONG: u32 = 100_000;

pub fn wanted(answer: Result<RunAnswer, Refusal>) -> RunResult {
    match answer {
        Ok(run) => RunResult {
            outcome: run.outcome as u32,
            steps: run.steps,
            value: run.value.into(),
            objects: run.objects.into(),
            ..run_of(NONE)
        },
        Err(refusal) => run_of(four(refusal)),
    }
}

/// What was reached: refusals by number (0 where accepted) and outcomes.
#[derive(Default)]
struct Seen {
    refusals: [u32; 15],
    outcomes: [u32; 4],
    runs: u32,
}

impl Seen {
    /// Asks, compares, and looks at every number of the buffer afterwards.
    fn compare(&mut self, text: &[u8], budget: u32, wanted: RunResult, entry: &[u16], name: &str) {
        let mut work = entry.to_vec();
        let answer = run(text, budget, &mut work);
        assert_eq!(answer, wanted, "{name}, budget {budget}");
        is_left_clean(&work, entry, name);
        self.refusals[answer.refusal as usize] += 1;
        if answer.refusal == 0 {
            self.outcomes[answer.outcome as usize] += 1;
        }
        self.runs += 1;
    }

    /// A refused sheet at two budgets, an accepted one at several.
    fn compare_sheet(&mut self, text: &[u8], seed: u64, name: &str) {
        let entry = noise(seed, WORK + (seed as usize % 3) * 7);
        if let Err(refusal) = second::verdict(text) {
            for budget in [fixed(seed), random(seed)] {
                self.compare(text, budget, wanted(Err(refusal)), &entry, name);
            }
            return;
        }
        let sheet = second::read(text).expect("an accepted sheet");
        for budget in budgets(&sheet, seed) {
            let answer = Machine::start(&sheet).run(budget);
            self.compare(text, budget, wanted(Ok(answer)), &entry, name);
        }
    }
}

fn fixed(seed: u64) -> u32 {
    [0, 1, 2, 7, 65, 66, 10_000][seed as usize % 7]
}

/// Any 32 bits, in half of the cases fewer.
fn random(seed: u64) -> u32 {
    let bits = noise(!seed, 3);
    let number = u32::from(bits[0]) << 16 | u32::from(bits[1]);
    number >> (bits[2] % 2 * (bits[2] / 2 % 32))
}

/// Two of the fixed budgets, those around the sheet's own step count, and a
/// random one, which is huge only where the sheet is known to end.
fn budgets(sheet: &Sheet, seed: u64) -> [u32; 6] {
    let mut machine = Machine::start(sheet);
    let near = machine.run(10_000).steps;
    let ends = machine.run(LONG).outcome != Outcome::Spent;
    let random = match ends {
        true => random(seed),
        false => random(seed) % LONG,
    };
    let below = near.saturating_sub(1);
    [fixed(seed), fixed(seed / 7), below, near, near + 1, random]
}

#[test]
fn the_run_agrees_on_20000_sheets() {
    let mut seen = Seen::default();
    for index in 0..20_000 {
        let text = generator::sheet(51, index);
        seen.compare_sheet(&text, index + 1, &format!("sheet {index}"));
    }
    for number in [0, 2, 3, 4, 5, 6, 7, 8, 9, 10, 14] {
        assert!(seen.refusals[number] > 0, "{number} was never the answer");
    }
    assert!(seen.outcomes.iter().all(|count| *count > 1_000));
    assert!(seen.runs > 70_000, "{} runs", seen.runs);
}

#[test]
fn the_run_agrees_on_4000_mills() {
    let mut seen = Seen::default();
    for index in 0..4_000 {
        let text = generator::mill(52, index);
        seen.compare_sheet(&text, index + 1, &format!("mill {index}"));
    }
    assert_eq!(seen.runs, 24_000);
    assert!(seen.outcomes.iter().all(|count| *count > 100));
}

#[test]
fn the_run_agrees_on_2000_sheets_with_devices() {
    let mut seen = Seen::default();
    for index in 0..2_000 {
        let text = generator::device(53, index);
        seen.compare_sheet(&text, index + 1, &format!("sheet {index} with devices"));
    }
    assert_eq!(seen.runs, 12_000);
    assert!(seen.outcomes.iter().all(|count| *count > 50));
}

#[test]
fn a_short_buffer_is_refused_first_and_left_as_it_was() {
    let long = vec![b'x'; 70_000];
    for length in [0, 1, 4_096, WORK - 1] {
        for text in [&b""[..], &long[..], CLERK] {
            for budget in [0, 8, u32::MAX] {
                let entry = noise(9, length);
                let mut work = entry.clone();
                assert_eq!(run(text, budget, &mut work), run_of(SHORT));
                assert_eq!(work, entry);
            }
        }
    }
}
