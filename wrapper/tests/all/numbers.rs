//! Numbers that the crate does not know, from an archive of a later version.

use lexondar::raw::{Begins, FitResult, RunResult, VerdictResult};
use lexondar::{Error, Reason, Run, UnknownNumber, Walk};

fn unknown<T>(field: &'static str, number: u32) -> Result<T, Error> {
    Err(Error::Unknown(UnknownNumber { field, number }))
}

#[test]
fn every_reason_comes_from_its_number_and_no_other_number_has_one() {
    for (number, reason) in (1..).zip(Reason::ALL) {
        assert_eq!(reason.number(), number);
        assert_eq!(Reason::try_from(number), Ok(*reason));
    }
    for number in [0, 1 + Reason::ALL.len() as u32, u32::MAX] {
        let field = "refusal";
        let given = Reason::try_from(number);
        assert_eq!(given, Err(UnknownNumber { field, number }));
    }
}

#[test]
fn an_unknown_refusal_is_an_error_and_no_answer() {
    let refused = VerdictResult {
        refusal: 99,
        line: 4,
        lack: 0,
        name: 0,
    };
    let given = refused.check();
    assert_eq!(given, unknown("refusal", 99));
    let said = "refusal 99 is of a later version than the crate";
    assert_eq!(given.expect_err("unknown").to_string(), said);
    let lacking = VerdictResult {
        refusal: 10,
        lack: 4,
        ..refused
    };
    assert_eq!(lacking.check(), unknown("lack", 4));
}

#[test]
fn an_unknown_outcome_is_an_error_and_no_answer() {
    let given = |outcome| RunResult {
        refusal: 0,
        line: 0,
        lack: 0,
        name: 0,
        outcome,
        steps: 1,
        value: 2,
        objects: 3,
    };
    for number in 0..4 {
        let run = Run::try_from(given(number)).expect("known");
        assert_eq!(run.outcome.number(), number);
    }
    assert_eq!(Run::try_from(given(4)), unknown("outcome", 4));
}

#[test]
fn an_unknown_lack_is_an_error_and_no_answer() {
    let given = |lack| FitResult {
        refusal: 0,
        line: 0,
        lack,
        name: 5,
        fits: 0,
        passed: 0,
    };
    for number in [2, 3] {
        let walk = Walk::try_from(given(number)).expect("known");
        let lack = walk.fit.lack().expect("no fit");
        assert_eq!(lack.number(), number);
    }
    // A `new` lacks a count, and a row never does.
    for number in [1, 4] {
        assert_eq!(Walk::try_from(given(number)), unknown("lack", number));
    }
}
