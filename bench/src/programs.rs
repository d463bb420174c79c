//! The programs that are compared, and the questions that they are asked.

use crate::{plain, threaded};
use boundary::{entries, four, lacking, Begins, Four, AUTHORITY, REPORT, WORK};
use second::machine::Machine;
use second::{FitAnswer, FitTold, Refusal, RunAnswer, Sheet};
use std::cell::RefCell;
use std::hint::black_box;

#[derive(Clone, Copy, Debug)]
pub enum Program {
    Library,
    Second,
    Plain,
    Threaded,
}

/// Every program with its word on the command line.
const PROGRAMS: [(Program, &str); 4] = [
    (Program::Library, "library"),
    (Program::Second, "second"),
    (Program::Plain, "plain"),
    (Program::Threaded, "threaded"),
];

/// Fit is asked of two rows, the lines of one form, a run and a report have a
/// budget, a group has one too and its number of members: main, and then the
/// objects from 0 on.
#[derive(Clone, Copy, Debug)]
pub enum Question {
    Verdict,
    Fit(u32, u32),
    Form(u32),
    Run(u32),
    Report(u32),
    Group(u32, u32),
    Bound,
}

/// The numbers that every result begins with; then 1 for yes, or the outcome,
/// steps, value and number of objects, or the most steps in their place; and
/// how many numbers a report or a group has, or bytes a form's lines.
pub type Answer = (Four, [u32; 5]);

/// A question that is ready to be asked again and again.
pub type Call<'a> = Box<dyn FnMut() -> Answer + 'a>;

impl Program {
    pub fn word(self) -> &'static str {
        PROGRAMS[self as usize].1
    }

    pub fn of(word: &str) -> Option<Program> {
        let found = PROGRAMS.iter().find(|program| program.1 == word)?;
        Some(found.0)
    }

    /// The question on this text. What a program needs ready before it can be
    /// asked is made here: an interpreter's code, for one.
    pub fn call(self, question: Question, text: &[u8]) -> Call<'_> {
        match (self, question) {
            (Program::Library, _) => library(question, text),
            (Program::Second, _) => second_program(question, text),
            (Program::Plain, Question::Run(budget)) => {
                let program = plain::Program::of(&read(text));
                Box::new(move || ran(program.run(black_box(budget))))
            }
            (Program::Threaded, Question::Run(budget)) => {
                let program = threaded::Program::of(&read(text));
                Box::new(move || ran(program.run(black_box(budget))))
            }
            _ => panic!("an interpreter only runs"),
        }
    }
}

impl Question {
    /// The question on the command line.
    pub fn words(self) -> [String; 3] {
        let (word, a, b) = match self {
            Question::Verdict => ("verdict", 0, 0),
            Question::Fit(a, b) => ("fit", a, b),
            Question::Form(form) => ("form", form, 0),
            Question::Run(budget) => ("run", budget, 0),
            Question::Report(budget) => ("report", budget, 0),
            Question::Group(budget, members) => ("group", budget, members),
            Question::Bound => ("bound", 0, 0),
        };
        [word.to_string(), a.to_string(), b.to_string()]
    }

    pub fn of(words: [&str; 3]) -> Option<Question> {
        let (a, b) = (words[1].parse().ok()?, words[2].parse().ok()?);
        match words[0] {
            "verdict" => Some(Question::Verdict),
            "fit" => Some(Question::Fit(a, b)),
            "form" => Some(Question::Form(a)),
            "run" => Some(Question::Run(a)),
            "report" => Some(Question::Report(a)),
            "group" => Some(Question::Group(a, b)),
            "bound" => Some(Question::Bound),
            _ => None,
        }
    }
}

/// Lends the one work buffer that all calls share, as on a terminal. With a
/// buffer for each call, where it lies would move the times.
fn with_work<T>(ask: impl FnOnce(&mut [u16]) -> T) -> T {
    thread_local! {
        static BUFFER: RefCell<Vec<u16>> = RefCell::new(vec![0; WORK]);
    }
    BUFFER.with_borrow_mut(|work| ask(work))
}

fn library(question: Question, text: &[u8]) -> Call<'_> {
    match question {
        Question::Verdict => Box::new(move || {
            let given = with_work(|work| boundary::verdict(black_box(text), work));
            (given.four(), [0; 5])
        }),
        Question::Fit(a, b) => Box::new(move || {
            let (a, b) = (a as usize, b as usize);
            let given = with_work(|work| boundary::fit(black_box(text), a, b, work));
            (given.four(), [given.fits, given.passed, 0, 0, 0])
        }),
        Question::Form(form) => Box::new(move || {
            let g = with_work(|work| boundary::form(black_box(text), form as usize, work));
            (g.four(), [0, 0, 0, 0, g.length as u32])
        }),
        Question::Run(budget) => Box::new(move || {
            let g = with_work(|work| boundary::run(black_box(text), budget, work));
            (g.four(), [g.outcome, g.steps, g.value, g.objects, 0])
        }),
        Question::Report(budget) => library_report(budget, text),
        Question::Group(budget, members) => library_group(budget, members, text),
        Question::Bound => Box::new(move || {
            let given = with_work(|work| boundary::bound(black_box(text), work));
            (given.four(), [0, given.steps, 0, 0, 0])
        }),
    }
}

fn library_report(budget: u32, text: &[u8]) -> Call<'_> {
    let mut result = vec![0; REPORT];
    Box::new(move || {
        let text = black_box(text);
        let g = with_work(|work| boundary::report(text, budget, work, &mut result));
        (g.four(), [g.outcome, g.steps, g.value, g.objects, g.count])
    })
}

fn library_group(budget: u32, members: u32, text: &[u8]) -> Call<'_> {
    let (list, mut result) = (group::<u16>(members), vec![0; AUTHORITY]);
    Box::new(move || {
        let text = black_box(text);
        let g = with_work(|work| boundary::group(text, budget, &list, work, &mut result));
        (g.four(), [0, 0, 0, 0, g.count])
    })
}

/// Main, and then the objects from 0 on.
fn group<T: From<u16>>(members: u32) -> Vec<T> {
    let all = std::iter::once(256).chain(0..);
    all.take(members as usize).map(T::from).collect()
}

fn second_program(question: Question, text: &[u8]) -> Call<'_> {
    match question {
        Question::Verdict => Box::new(move || judged(second::verdict(black_box(text)))),
        Question::Fit(a, b) => Box::new(move || match second::fit(black_box(text), a, b) {
            Ok(told) => fitted(told),
            Err(refusal) => judged(Err(refusal)),
        }),
        Question::Form(form) => {
            let form = form as usize;
            Box::new(move || match second::form(black_box(text), form) {
                Ok(lines) => ([0; 4], [0, 0, 0, 0, lines.len() as u32]),
                Err(refusal) => judged(Err(refusal)),
            })
        }
        Question::Run(budget) => Box::new(move || match second::run(black_box(text), budget) {
            Ok(run) => ran(run),
            Err(refusal) => judged(Err(refusal)),
        }),
        Question::Report(budget) => second_report(budget, text),
        Question::Group(budget, members) => second_group(budget, members, text),
        Question::Bound => Box::new(move || match second::bound(black_box(text)) {
            Ok(steps) => ([0; 4], [0, steps, 0, 0, 0]),
            Err(refusal) => judged(Err(refusal)),
        }),
    }
}

/// Its verdict keeps the sheet to itself, so the run goes on from one that was
/// read before: nothing is counted twice.
fn second_report(budget: u32, text: &[u8]) -> Call<'_> {
    let sheet = read(text);
    Box::new(move || {
        black_box(judged(second::verdict(black_box(text))));
        let mut machine = Machine::start(&sheet);
        let mut answer = ran(machine.run(black_box(budget)));
        answer.1[4] = black_box(entries(&machine)).len() as u32;
        answer
    })
}

fn second_group(budget: u32, members: u32, text: &[u8]) -> Call<'_> {
    let list = group::<u32>(members);
    Box::new(
        move || match second::group(black_box(text), budget, &list) {
            Ok(held) => ([0; 4], [0, 0, 0, 0, black_box(held).len() as u32]),
            Err(refusal) => judged(Err(refusal)),
        },
    )
}

/// The sheet of an accepted text.
fn read(text: &[u8]) -> Sheet {
    second::verdict(text).expect("an accepted sheet");
    second::read(text).expect("an accepted sheet")
}

fn judged(verdict: Result<(), Refusal>) -> Answer {
    (verdict.err().map_or([0; 4], four), [0; 5])
}

fn fitted(FitTold { answer, passed }: FitTold) -> Answer {
    let [lack, name] = lacking(answer.lack());
    let fits = answer == FitAnswer::Yes;
    ([0, 0, lack, name], [fits.into(), passed, 0, 0, 0])
}

fn ran(run: RunAnswer) -> Answer {
    let (value, objects) = (run.value.into(), run.objects.into());
    ([0; 4], [run.outcome as u32, run.steps, value, objects, 0])
}
