//! The report against the second program: the run, and every holder's entry.

use crate::common::{budget_for, draw, is_left_clean, is_written, noise, CLERK};
use crate::refused::{report_of, NONE, SHORT};
use boundary::{entries, four, report, ReportResult, REPORT, WORK};
use second::machine::Machine;
use second::RunAnswer;

fn ran(run: RunAnswer, count: usize) -> ReportResult {
    ReportResult {
        outcome: run.outcome as u32,
        steps: run.steps,
        value: run.value.into(),
        objects: run.objects.into(),
        count: count as u32,
        ..report_of(NONE)
    }
}

/// The second program's answer and numbers, and the budget that they are for.
fn wanted(text: &[u8], seed: u64) -> (u32, ReportResult, Vec<u16>) {
    let any = draw(!seed) as u32;
    if let Err(refusal) = second::verdict(text) {
        return (any, report_of(four(refusal)), Vec::new());
    }
    let sheet = second::read(text).expect("an accepted sheet");
    let budget = budget_for(&sheet, seed);
    let mut machine = Machine::start(&sheet);
    let run = machine.run(budget);
    let numbers = entries(&machine);
    (budget, ran(run, numbers.len()), numbers)
}

/// Asks, compares, and looks at every number of both buffers afterwards.
fn compare(text: &[u8], seed: u64, name: &str) -> ReportResult {
    let (budget, wanted, numbers) = wanted(text, seed);
    let name = format!("{name}, budget {budget}");
    let more = draw(seed) as usize % 3;
    let work_entry = noise(seed, WORK + more * 7);
    let result_entry = noise(!seed, REPORT + (seed as usize % 4) * 11);
    let (mut work, mut result) = (work_entry.clone(), result_entry.clone());
    let answer = report(text, budget, &mut work, &mut result);
    assert_eq!(answer, wanted, "{name}");
    is_written(&result, &result_entry, &numbers, &name);
    is_left_clean(&work, &work_entry, &name);
    answer
}

/// What was reached: refusals by number (0 where accepted), outcomes, reports
/// of main alone with nothing held, and the largest report.
#[derive(Default)]
struct Seen {
    refusals: [u32; 15],
    outcomes: [u32; 4],
    bare: u32,
    most: u32,
}

impl Seen {
    fn count(&mut self, answer: ReportResult) {
        self.refusals[answer.refusal as usize] += 1;
        if answer.refusal == 0 {
            self.outcomes[answer.outcome as usize] += 1;
            self.bare += u32::from(answer.count == 2);
        }
        self.most = self.most.max(answer.count);
    }
}

#[test]
fn the_report_agrees_on_5000_sheets() {
    let mut seen = Seen::default();
    for index in 0..5_000 {
        let text = generator::sheet(71, index);
        seen.count(compare(&text, index + 1, &format!("sheet {index}")));
    }
    for number in [0, 2, 3, 4, 5, 6, 7, 8, 9, 10, 14] {
        assert!(seen.refusals[number] > 0, "{number} was never the answer");
    }
    let outcomes = seen.outcomes;
    assert!(outcomes.iter().all(|count| *count > 20), "{outcomes:?}");
    assert!(seen.bare > 50, "{} bare", seen.bare);
    assert!(seen.most > 800, "{} numbers at most", seen.most);
}

#[test]
fn the_report_agrees_on_1000_mills() {
    let mut seen = Seen::default();
    for index in 0..1_000 {
        let text = generator::mill(72, index);
        seen.count(compare(&text, index + 1, &format!("mill {index}")));
    }
    let outcomes = seen.outcomes;
    assert!(outcomes.iter().all(|count| *count > 0), "{outcomes:?}");
    assert!(seen.most > 800, "{} numbers at most", seen.most);
}

#[test]
fn the_report_agrees_on_600_sheets_with_devices() {
    let mut seen = Seen::default();
    for index in 0..600 {
        let text = generator::device(74, index);
        seen.count(compare(
            &text,
            index + 1,
            &format!("sheet {index} with devices"),
        ));
    }
    assert_eq!(seen.refusals[0], 600);
    let outcomes = seen.outcomes;
    assert!(outcomes.iter().all(|count| *count > 0), "{outcomes:?}");
}

#[test]
fn the_report_agrees_on_600_idle_sheets() {
    let mut seen = Seen::default();
    for index in 0..600 {
        let text = generator::idle(73, index);
        seen.count(compare(&text, index + 1, &format!("idle sheet {index}")));
    }
    assert_eq!(seen.refusals[0], 600);
    let outcomes = seen.outcomes;
    assert!(outcomes.iter().all(|count| *count > 0), "{outcomes:?}");
}

/// The clerk's three sets, as the paper prints them.
#[test]
fn the_clerk_in_buffers_of_exactly_the_size() {
    let (work_entry, result_entry) = (noise(3, WORK), noise(4, REPORT));
    let (mut work, mut result) = (work_entry.clone(), result_entry.clone());
    let answer = report(CLERK, 10_000, &mut work, &mut result);
    let wanted = ReportResult {
        steps: 8,
        objects: 3,
        count: 9,
        ..report_of(NONE)
    };
    assert_eq!(answer, wanted);
    let numbers = [256, 0, 1, 1, 1, 2, 2, 1, 2];
    is_written(&result, &result_entry, &numbers, "clerk");
    is_left_clean(&work, &work_entry, "clerk");
}

#[test]
fn a_short_buffer_is_refused_first_and_both_are_left_as_they_were() {
    let long = vec![b'x'; 70_000];
    let short = [
        (WORK - 1, REPORT),
        (WORK, REPORT - 1),
        (WORK - 1, REPORT - 1),
        (WORK + 5, 256),
        (WORK, 0),
        (0, REPORT + 5),
        (0, 0),
    ];
    for (work_length, result_length) in short {
        for text in [&b""[..], &long[..], CLERK] {
            let (work_entry, result_entry) = (noise(9, work_length), noise(8, result_length));
            let (mut work, mut result) = (work_entry.clone(), result_entry.clone());
            let answer = report(text, 8, &mut work, &mut result);
            let name = format!("{work_length} and {result_length}");
            assert_eq!(answer, report_of(SHORT), "{name}");
            assert!(work == work_entry && result == result_entry, "{name}");
        }
    }
}
