//! The run beside two C interpreters and the second program. The plain
//! interpreter works over the table as the library does and is the yardstick;
//! the threaded one shows what turning the sheet into code first would bring.

use crate::counts;
use crate::programs::{Call, Program, Question};
use crate::run_sheets::{Work, COUNTED, TIMED, WORKS};
use crate::table::{decimal, whole, Table};
use crate::timing::{self, timed};

const WHOLE: Question = Question::Run(u32::MAX);
const NO_STEP: Question = Question::Run(0);
const PROGRAMS: [Program; 4] = [
    Program::Library,
    Program::Plain,
    Program::Threaded,
    Program::Second,
];

/// Prints the table: nanoseconds a step, then instructions a step.
pub fn table() {
    let mut table = Table::new(&[
        "run, ns a step",
        "steps",
        "M steps/s",
        "here",
        "C",
        "here to C",
        "threaded C",
        "second",
        "second to here",
        "instructions",
        "C",
        "threaded C",
        "second",
    ]);
    for work in &WORKS {
        table.add(row(work));
    }
    table.print();
}

fn row(work: &Work) -> Vec<String> {
    let text = (work.sheet)(TIMED);
    let steps = steps(text.as_bytes());
    let times = times(work, text.as_bytes());
    let [here, plain, threaded, second] = times.map(|time| time / f64::from(steps));
    let mut cells = vec![work.name.to_string(), whole(steps.into())];
    cells.extend([
        decimal(1e3 / here, 0),
        decimal(here, 2),
        decimal(plain, 2),
        decimal(here / plain, 2),
        decimal(threaded, 2),
        decimal(second, 2),
        decimal(second / here, 1),
    ]);
    cells.extend(PROGRAMS.map(|program| decimal(count(program, work), 1)));
    cells
}

/// The steps of a sheet's whole run, about which all agree.
pub fn steps(text: &[u8]) -> u32 {
    let wanted = Program::Second.call(WHOLE, text)();
    for program in PROGRAMS {
        assert_eq!(program.call(WHOLE, text)(), wanted, "{program:?}");
    }
    wanted.1[1]
}

/// Nanoseconds of a run in each program. Reading, judging and clearing are no
/// steps, so the same question with a budget of 0 is taken off; the
/// interpreters run after that question, which leaves the caches to all alike.
fn times(work: &Work, text: &[u8]) -> [f64; 4] {
    let call = |program: Program, question: Question| program.call(question, text);
    let after = |program: Program| -> Call {
        let mut no_step = call(Program::Library, NO_STEP);
        let mut run = call(program, WHOLE);
        Box::new(move || {
            no_step();
            run()
        })
    };
    let calls = [
        call(Program::Library, NO_STEP),
        call(Program::Second, NO_STEP),
        call(Program::Library, WHOLE),
        after(Program::Plain),
        after(Program::Threaded),
        call(Program::Second, WHOLE),
    ];
    let rounds = if work.runs == 1 { 9 } else { 300 };
    let best = timing::best(rounds, &mut calls.map(|call| timed(work.runs, call)));
    let (here, second) = (best[0], best[1]);
    [
        best[2] - here,
        best[3] - here,
        best[4] - here,
        best[5] - second,
    ]
}

/// Instructions a step, counted on a smaller run.
pub fn count(program: Program, work: &Work) -> Option<f64> {
    let text = (work.sheet)(COUNTED);
    let text = text.as_bytes();
    let whole = counts::of_call(program, WHOLE, text)?;
    let off = match program {
        Program::Library | Program::Second => counts::of_call(program, NO_STEP, text)?,
        Program::Plain | Program::Threaded => 0.0,
    };
    Some((whole - off) / f64::from(steps(text)))
}
