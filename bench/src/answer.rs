//! What the C interpreters answer.

use second::{Outcome, RunAnswer};

/// `Answer` in C.
#[repr(C)]
pub struct Answer {
    outcome: u32,
    steps: u32,
    value: u32,
    objects: u32,
}

impl Answer {
    /// The same in the second program's words.
    pub fn told(self) -> RunAnswer {
        let outcomes = [
            Outcome::Done,
            Outcome::Spent,
            Outcome::StoreFull,
            Outcome::StackFull,
        ];
        RunAnswer {
            outcome: outcomes[self.outcome as usize],
            steps: self.steps,
            value: self.value as u16,
            objects: self.objects as u16,
        }
    }
}
