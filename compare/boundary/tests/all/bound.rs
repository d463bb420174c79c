//! The question for the most steps against the second program, at its edges,
//! and against runs with that budget and with one step less.

use crate::common::{draw, is_left_clean, lines, noise, CIRCULAR, CLERK, LOOP, SURE};
use crate::refused::{bound_of, NONE, SHORT};
use crate::run::wanted;
use boundary::{bound, four, run, BoundResult, WORK};
use second::machine::Machine;
use second::Outcome;

/// Runs of more steps than this are left out, for the time they take.
const LONG: u32 = 20_000;

/// The second program's answer.
pub fn most_of(text: &[u8]) -> BoundResult {
    match second::bound(text) {
        Ok(steps) => BoundResult {
            steps,
            ..bound_of(NONE)
        },
        Err(refusal) => bound_of(four(refusal)),
    }
}

/// Asks, compares, and looks at every number of the buffer afterwards.
fn compare(text: &[u8], entry: &[u16], name: &str) -> BoundResult {
    let mut work = entry.to_vec();
    let answer = bound(text, &mut work);
    assert_eq!(answer, most_of(text), "{name}");
    is_left_clean(&work, entry, name);
    answer
}

/// The answer in buffers of exactly the size and in longer ones: steps, or a
/// refusal's number and line.
fn ask(text: &[u8], name: &str) -> Result<u32, (u32, u32)> {
    let exact = compare(text, &noise(23, WORK), name);
    let longer = compare(text, &noise(24, WORK + 9), name);
    assert_eq!(exact, longer, "{name}");
    match exact.refusal {
        0 => Ok(exact.steps),
        number => Err((number, exact.line)),
    }
}

#[test]
fn the_edges_have_the_answers_of_the_rules() {
    for (number, (text, answer)) in generator::bound_edges().into_iter().enumerate() {
        let name = format!("edge {number}");
        assert_eq!(ask(&text, &name), answer, "{name}");
    }
}

/// What was reached: refusals by number (0 where answered), outcomes of runs
/// with the answered budget, how many of these budgets were over `LONG`, and
/// outcomes with one step less.
#[derive(Default)]
struct Seen {
    refusals: [u32; 15],
    outcomes: [u32; 4],
    large: u32,
    less: [u32; 4],
}

impl Seen {
    /// A sheet, and its runs if it is answered. The answer is never 0, since
    /// main has an instruction.
    fn compare_sheet(&mut self, text: &[u8], seed: u64, name: &str) {
        let entry = noise(seed, WORK + (draw(seed) as usize % 3) * 7);
        let answer = compare(text, &entry, name);
        self.refusals[answer.refusal as usize] += 1;
        if answer.refusal == 0 && ends(text, answer.steps) {
            let outcome = ran(text, answer.steps, &entry, name);
            assert_ne!(outcome, Outcome::Spent as u32, "{name}");
            self.outcomes[outcome as usize] += 1;
            self.large += u32::from(answer.steps > LONG);
            let outcome = ran(text, answer.steps - 1, &entry, name);
            self.less[outcome as usize] += 1;
        }
    }
}

/// Whether a run with this budget is over within `LONG` steps: the budget is
/// no larger, or the second program ends by then. No other is run, since there
/// are answers of over four billion steps.
fn ends(text: &[u8], budget: u32) -> bool {
    let sheet = second::read(text).expect("an accepted sheet");
    budget <= LONG || Machine::start(&sheet).run(LONG).outcome != Outcome::Spent
}

/// The outcome of a run, about which both programs agree.
fn ran(text: &[u8], budget: u32, entry: &[u16], name: &str) -> u32 {
    let mut work = entry.to_vec();
    let answer = run(text, budget, &mut work);
    assert_eq!(answer, wanted(second::run(text, budget)), "{name}");
    is_left_clean(&work, entry, name);
    answer.outcome
}

#[test]
fn the_most_steps_agree_on_4000_strict_sheets_and_are_enough() {
    let mut seen = Seen::default();
    for index in 0..4_000 {
        let text = generator::strict(101, index);
        seen.compare_sheet(&text, index + 1, &format!("strict sheet {index}"));
    }
    let Seen {
        refusals,
        outcomes,
        large,
        less,
    } = seen;
    let most = [(0, 1_000), (12, 1_000), (13, 300)];
    let others = [(8, 100), (9, 100), (10, 50)];
    for (number, enough) in most.into_iter().chain(others) {
        assert!(refusals[number] > enough, "{number}: {refusals:?}");
    }
    let [done, spent, store, stack] = outcomes;
    assert!(done > 500 && store > 100 && stack > 20, "{outcomes:?}");
    assert!(spent == 0 && large > 50, "{spent} spent, {large} large");
    assert!(less[0] > 300 && less[1] > 300, "{less:?}");
}

/// They are one line apart. Nobody makes the form that differs, so both run
/// alike; its body is the larger of two, so the run needs less than the answer.
#[test]
fn the_examples_run_alike_and_one_is_sure_to_finish() {
    let lines = |text: &'static [u8]| text.split(|byte| *byte == b'\n');
    let apart = lines(SURE).zip(lines(CIRCULAR)).filter(|(a, b)| a != b);
    assert_eq!((SURE.len(), apart.count()), (CIRCULAR.len(), 1));
    assert_eq!(ask(SURE, "sure"), Ok(36));
    assert_eq!(ask(CIRCULAR, "circular"), Err((12, 21)));
    for text in [SURE, CIRCULAR] {
        let outcome = |budget| ran(text, budget, &noise(25, WORK), "an example");
        assert_eq!([25, 26, 36].map(outcome), [1, 0, 0]);
    }
}

/// A method that calls itself on line 9 or 10, and something else that is
/// wrong, on a later line or on the same.
#[test]
fn a_circular_call_is_looked_for_after_typing() {
    assert_eq!(ask(LOOP, "the loop"), Err((12, 9)));
    let head = "types=2 / type=0,0 / type=1,1 / def=1,0,0 / forms=2 / form=0,0";
    let (circular, made) = ("body=1 / call=0,1,1", "main=1 / new=0");
    for (body, main, refused) in [
        (circular, made, (12, 9)),
        (circular, "main=3 / new=0 / new=1 / call=1,2,0", (9, 13)),
        (circular, "main=3 / new=0 / new=1 / call=1,1,1", (10, 13)),
        (circular, "main=3 / new=0 / new=1,0 / copy=0", (10, 12)),
        (circular, "main=1 / get=1", (9, 11)),
        (circular, "main=1 / copy=0", (7, 11)),
        (circular, "main=0", (4, 10)),
        ("body=2 / call=0,1,1 / copy=0", made, (10, 10)),
        ("body=2 / copy=0 / call=0,1,0", made, (10, 10)),
        ("body=2 / copy=1 / call=0,1,1", made, (12, 10)),
    ] {
        let text = lines(&format!("{head} / form=1,0 / {body} / {main}"));
        assert_eq!(ask(&text, main), Err(refused), "{body} / {main}");
    }
}

#[test]
fn a_short_buffer_is_refused_first_and_left_as_it_was() {
    for length in [0, 1, WORK - 1] {
        for text in [&b""[..], CLERK, LOOP, &[b'x'; 65_536]] {
            let entry = noise(9, length);
            let mut work = entry.clone();
            assert_eq!(bound(text, &mut work), bound_of(SHORT));
            assert_eq!(work, entry);
        }
    }
}

#[test]
fn a_text_over_the_limit_is_not_read() {
    for (length, refused) in [(65_535, (3, 1)), (65_536, (2, 0)), (70_000, (2, 0))] {
        let text = vec![b'\n'; length];
        let name = format!("{length} bytes");
        assert_eq!(ask(&text, &name), Err(refused), "{name}");
    }
}
