//! All eight questions against the second program on the same sheets, with
//! buffers that are one number too short, exactly as long as asked, or longer.

use crate::bound::most_of;
use crate::common::{budget_for, draw, is_left_clean, is_written, noise};
use crate::form::stretch_of;
use crate::refused::{
    bound_of, fit_of, form_of, held_of, report_of, run_of, told_of, verdict_of, NONE, SHORT,
};
use boundary::{
    authority, bound, entries, fit, form, four, group, report, run, verdict, AuthorityResult,
    ReportResult, RunResult, AUTHORITY, REPORT, WORK,
};
use second::machine::Machine;
use second::Refusal;
use std::fmt::Debug;

/// A sheet, what decides the buffers and numbers, and numbers for buffers.
struct Case<'a> {
    text: &'a [u8],
    seed: u64,
    noise: &'a [u16],
}

/// Which lengths were met: too short, exact, longer.
type Lengths = [u32; 3];

impl Case<'_> {
    /// A buffer at entry: of eight one is too short, and four are exact.
    fn entry(&self, asked: usize, salt: u64, seen: &mut Lengths) -> Vec<u16> {
        let drawn = draw(self.seed ^ (salt << 32)) as usize;
        let (kind, length) = match drawn % 8 {
            _ if asked == 0 => (1, 0),
            0 => (0, asked - 1),
            1..=4 => (1, asked),
            _ => (2, asked + 1 + (drawn >> 8) % 50),
        };
        seen[kind] += 1;
        let from = (drawn >> 16) % 64;
        self.noise[from..from + length].to_vec()
    }

    /// Asks, compares, and looks at every number of both buffers afterwards.
    fn ask<R: PartialEq + Debug>(
        &self,
        (salt, size): (u64, usize),
        (wanted, written): (R, &[u16]),
        short: R,
        seen: &mut Lengths,
        call: impl Fn(&mut [u16], &mut [u16]) -> R,
    ) {
        let work_entry = self.entry(WORK, salt, seen);
        let result_entry = self.entry(size, salt + 1, seen);
        let (mut work, mut result) = (work_entry.clone(), result_entry.clone());
        let answer = call(&mut work, &mut result);
        let name = format!("sheet {}, question {salt}", self.seed);
        if work_entry.len() < WORK || result_entry.len() < size {
            assert_eq!(answer, short, "{name}");
            assert!(work == work_entry && result == result_entry, "{name}");
            return;
        }
        assert_eq!(answer, wanted, "{name}");
        is_written(&result, &result_entry, written, &name);
        is_left_clean(&work, &work_entry, &name);
    }

    /// Two pairs of rows of a sheet that can be read; of eight sheets, one is
    /// asked for a third, with a row that it does not have.
    fn ask_fit(&self, seen: &mut Lengths) {
        let Ok(sheet) = second::read(self.text) else {
            return self.ask_pair(10, (0, 0), seen);
        };
        let rows = sheet.rows.len() as u16;
        for (place, (a, b)) in (0..).zip(generator::pairs(91, self.seed, rows)) {
            self.ask_pair(10 + 2 * place, (a.into(), b.into()), seen);
        }
        match draw(self.seed ^ 101) % 16 {
            0 => self.ask_pair(14, (0, rows.into()), seen),
            1 => self.ask_pair(14, (u32::MAX, 0), seen),
            _ => (),
        }
    }

    fn ask_pair(&self, salt: u64, (a, b): (u32, u32), seen: &mut Lengths) {
        let wanted = match second::fit(self.text, a, b) {
            Ok(told) => told_of(told),
            Err(refusal) => fit_of(four(refusal)),
        };
        let (asked, short) = ((salt, 0), fit_of(SHORT));
        self.ask(asked, (wanted, &[]), short, seen, |work, _| {
            fit(self.text, a as usize, b as usize, work)
        });
    }

    fn ask_form(&self, seen: &mut Lengths) {
        let number = match draw(self.seed ^ 104) % 40 {
            0 => usize::MAX,
            drawn => drawn as usize % 10,
        };
        let wanted = stretch_of(self.text, number);
        let asked = (70, 0);
        self.ask(asked, (wanted, &[]), form_of(SHORT), seen, |work, _| {
            form(self.text, number, work)
        });
    }

    fn ask_verdict(&self, seen: &mut Lengths) {
        let refusal = second::verdict(self.text).err();
        let wanted = verdict_of(refusal.map_or(NONE, four));
        let short = verdict_of(SHORT);
        self.ask((20, 0), (wanted, &[]), short, seen, |work, _| {
            verdict(self.text, work)
        });
    }

    /// The refusal's number, 0 where there is an answer.
    fn ask_bound(&self, seen: &mut Lengths) -> u32 {
        let wanted = most_of(self.text);
        let asked = (80, 0);
        self.ask(asked, (wanted, &[]), bound_of(SHORT), seen, |work, _| {
            bound(self.text, work)
        });
        wanted.refusal
    }

    /// Run, authority, group and report of a text that is refused.
    fn ask_refused(&self, refusal: Refusal, seen: &mut Lengths) {
        let budget = draw(!self.seed) as u32;
        let refusal = four(refusal);
        let text = self.text;
        let wanted = (run_of(refusal), &[][..]);
        self.ask((30, 0), wanted, run_of(SHORT), seen, |work, _| {
            run(text, budget, work)
        });
        let wanted = (held_of(refusal), &[][..]);
        let asked = (40, AUTHORITY);
        self.ask(asked, wanted, held_of(SHORT), seen, |work, result| {
            authority(text, budget, 256, work, result)
        });
        let wanted = (report_of(refusal), &[][..]);
        let asked = (50, REPORT);
        self.ask(asked, wanted, report_of(SHORT), seen, |work, result| {
            report(text, budget, work, result)
        });
        let list = self.list(9);
        let wanted = (held_of(refusal), &[][..]);
        let asked = (60, AUTHORITY);
        self.ask(asked, wanted, held_of(SHORT), seen, |work, result| {
            group(text, budget, &list, work, result)
        });
    }

    /// A list of 0 to 18 numbers for a state with this many objects.
    fn list(&self, objects: u16) -> Vec<u16> {
        let list = generator::group(91, self.seed, objects);
        list.into_iter().map(|number| number as u16).collect()
    }

    /// The same four of an accepted sheet; whether its list was answered.
    fn ask_accepted(&self, seen: &mut Lengths) -> bool {
        let text = self.text;
        let sheet = second::read(text).expect("an accepted sheet");
        let budget = budget_for(&sheet, self.seed);
        let mut machine = Machine::start(&sheet);
        let ran = machine.run(budget);
        let wanted = RunResult {
            outcome: ran.outcome as u32,
            steps: ran.steps,
            value: ran.value.into(),
            objects: ran.objects.into(),
            ..run_of(NONE)
        };
        self.ask((30, 0), (wanted, &[]), run_of(SHORT), seen, |work, _| {
            run(text, budget, work)
        });
        self.ask_holder(budget, seen);
        let numbers = entries(&machine);
        let wanted = ReportResult {
            outcome: wanted.outcome,
            steps: wanted.steps,
            value: wanted.value,
            objects: wanted.objects,
            count: numbers.len() as u32,
            ..report_of(NONE)
        };
        let (asked, short) = ((50, REPORT), report_of(SHORT));
        self.ask(asked, (wanted, &numbers), short, seen, |work, result| {
            report(text, budget, work, result)
        });
        self.ask_list((budget, ran.objects), seen)
    }

    /// What a list of holders holds; whether it was answered.
    fn ask_list(&self, (budget, objects): (u32, u16), seen: &mut Lengths) -> bool {
        let list = self.list(objects);
        let wide: Vec<u32> = list.iter().map(|number| (*number).into()).collect();
        let held = second::group(self.text, budget, &wide);
        let numbers = held.clone().unwrap_or_default();
        let (asked, short) = ((60, AUTHORITY), held_of(SHORT));
        let wanted = held_like(&held);
        self.ask(asked, (wanted, &numbers), short, seen, |work, result| {
            group(self.text, budget, &list, work, result)
        });
        held.is_ok()
    }

    /// The authority of some number, which may be no holder.
    fn ask_holder(&self, budget: u32, seen: &mut Lengths) {
        let holder = (draw(self.seed ^ 103) % 261) as u32;
        let held = second::authority(self.text, budget, holder);
        let numbers = held.clone().unwrap_or_default();
        let wanted = held_like(&held);
        let (asked, short) = ((40, AUTHORITY), held_of(SHORT));
        self.ask(asked, (wanted, &numbers), short, seen, |work, result| {
            authority(self.text, budget, holder as usize, work, result)
        });
    }
}

/// The answer to an accepted sheet: how much is held, or no holder.
fn held_like(held: &Result<Vec<u16>, Refusal>) -> AuthorityResult {
    match held {
        Ok(numbers) => AuthorityResult {
            count: numbers.len() as u32,
            ..held_of(NONE)
        },
        Err(refusal) => held_of(four(*refusal)),
    }
}

/// Every second sheet from one on; how many were accepted, how many lists
/// were answered, how many were sure to finish, and the lengths.
fn compare_half(first: u64, count: u64, noise: &[u16]) -> ([u32; 3], Lengths) {
    let (mut accepted, mut seen) = ([0; 3], [0; 3]);
    for seed in (first..count).step_by(2) {
        let text = match seed % 10 {
            0..=1 => generator::idle(91, seed),
            2 => generator::device(91, seed),
            _ => generator::sheet(91, seed),
        };
        let text = &text[..];
        let case = Case { text, seed, noise };
        case.ask_fit(&mut seen);
        case.ask_form(&mut seen);
        case.ask_verdict(&mut seen);
        accepted[2] += u32::from(case.ask_bound(&mut seen) == 0);
        match second::verdict(text) {
            Ok(()) => {
                accepted[0] += 1;
                accepted[1] += u32::from(case.ask_accepted(&mut seen));
            }
            Err(refusal) => case.ask_refused(refusal, &mut seen),
        }
    }
    (accepted, seen)
}

#[test]
fn every_question_agrees_on_50000_sheets() {
    let numbers = noise(97, REPORT + 200);
    let (even, odd) = std::thread::scope(|scope| {
        let odd = scope.spawn(|| compare_half(1, 50_000, &numbers));
        let even = compare_half(0, 50_000, &numbers);
        (even, odd.join().expect("the odd ones agree"))
    });
    let [accepted, lists, sure] = [0, 1, 2].map(|kind| even.0[kind] + odd.0[kind]);
    assert!(accepted > 15_000, "{accepted} accepted");
    assert!(lists > 5_000, "{lists} lists answered");
    assert!(accepted - lists > 5_000, "{lists} lists of {accepted}");
    assert!(sure > 5_000, "{sure} sure to finish");
    assert!(accepted - sure > 5_000, "{sure} sure of {accepted}");
    for (kind, (a, b)) in even.1.iter().zip(odd.1).enumerate() {
        assert!(a + b > 30_000, "length {kind} met {} times", a + b);
    }
}
