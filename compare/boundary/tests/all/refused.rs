//! What each question answers when it refuses, by the four numbers that every
//! result begins with.

use boundary::{lacking, Four};
use boundary::{AuthorityResult, BoundResult, FitResult, FormResult};
use boundary::{ReportResult, RunResult, VerdictResult};
use second::{FitAnswer, FitTold};

/// Nothing is refused and nothing is lacking.
pub const NONE: Four = [0; 4];

/// A buffer is too short.
pub const SHORT: Four = [1, 0, 0, 0];

pub fn fit_of([refusal, line, lack, name]: Four) -> FitResult {
    FitResult {
        refusal,
        line,
        lack,
        name,
        fits: 0,
        passed: 0,
    }
}

/// Fit's answer by the second program.
pub fn told_of(FitTold { answer, passed }: FitTold) -> FitResult {
    let [lack, name] = lacking(answer.lack());
    FitResult {
        fits: (answer == FitAnswer::Yes).into(),
        passed,
        ..fit_of([0, 0, lack, name])
    }
}

pub fn verdict_of([refusal, line, lack, name]: Four) -> VerdictResult {
    VerdictResult {
        refusal,
        line,
        lack,
        name,
    }
}

pub fn run_of([refusal, line, lack, name]: Four) -> RunResult {
    RunResult {
        refusal,
        line,
        lack,
        name,
        outcome: 0,
        steps: 0,
        value: 0,
        objects: 0,
    }
}

pub fn held_of([refusal, line, lack, name]: Four) -> AuthorityResult {
    AuthorityResult {
        refusal,
        line,
        lack,
        name,
        count: 0,
    }
}

pub fn report_of([refusal, line, lack, name]: Four) -> ReportResult {
    ReportResult {
        refusal,
        line,
        lack,
        name,
        outcome: 0,
        steps: 0,
        value: 0,
        objects: 0,
        count: 0,
    }
}

pub fn form_of([refusal, line, lack, name]: Four) -> FormResult {
    FormResult {
        refusal,
        line,
        lack,
        name,
        start: 0,
        length: 0,
    }
}

pub fn bound_of([refusal, line, lack, name]: Four) -> BoundResult {
    BoundResult {
        refusal,
        line,
        lack,
        name,
        steps: 0,
    }
}
