//! Main of a ladder: it makes an object of each row that it needs, and calls
//! rungs.

use crate::draft::{line, Line};
use crate::ladder::{shuffle, Goal, Ladder};
use crate::rng::Rng;
use second::sheet::CODE_LIMIT;

/// Main's instructions. The first slot has an object without methods, the
/// next ones an object of each row.
pub fn main(rng: &mut Rng, ladder: &Ladder, goal: Goal) -> Vec<Line> {
    let (top, mut called) = match goal {
        Goal::Steps(steps) => climb(ladder, steps),
        Goal::Top => some(rng, ladder, ladder.rungs() - 1),
        Goal::Low => {
            let top = rng.below(ladder.rungs());
            some(rng, ladder, top)
        }
    };
    shuffle(rng, &mut called);
    let mut code = vec![line("new", &ladder.forms_of(None))];
    for row in 0..=ladder.row(top) {
        let form = rng.pick(&ladder.forms_of(Some(row)));
        let kept = 1..=row as u32;
        code.push(line("new", &Vec::from_iter([form].into_iter().chain(kept))));
    }
    let first = code.len() as u32;
    for called in called {
        // The object without methods, or what a call gave.
        let given = (first..code.len() as u32).chain([0]);
        let given = rng.pick(&Vec::from_iter(given));
        code.push(match called {
            Some(rung) => {
                let slot = ladder.row(rung) as u32 + 1;
                line("call", &[slot, ladder.name(rung), given])
            }
            None => line("copy", &[given]),
        });
    }
    code
}

/// How many instructions are left when the objects up to this rung are made.
fn room(ladder: &Ladder, top: usize) -> usize {
    usize::from(CODE_LIMIT) - 2 - ladder.row(top)
}

/// The highest rung of all that are called, and these with copies beside
/// them, so that main takes as many steps as wanted. The highest comes
/// first, so that what may be lacking is little.
fn climb(ladder: &Ladder, steps: u128) -> (usize, Vec<Option<usize>>) {
    let fits = |rung: &usize| ladder.costs[*rung] <= steps;
    let top = (0..ladder.rungs()).rfind(fits).unwrap_or(0);
    let room = room(ladder, top);
    let made = usize::from(CODE_LIMIT) - room;
    let mut left = steps.saturating_sub(made as u128);
    let mut called = Vec::new();
    for rung in (0..=top).rev() {
        while called.len() < room && ladder.costs[rung] <= left {
            called.push(Some(rung));
            left -= ladder.costs[rung];
        }
    }
    while called.len() < room && left > 0 {
        called.push(None);
        left -= 1;
    }
    (top, called)
}

/// This rung, and any others of the lower ones.
fn some(rng: &mut Rng, ladder: &Ladder, top: usize) -> (usize, Vec<Option<usize>>) {
    let more = rng.between(0, room(ladder, top) - 1);
    let more = rng.pick(&[0, 1, 2, more]);
    let mut called = vec![Some(top)];
    for _ in 0..more {
        let lower = rng.between(0, top);
        called.push((!rng.chance(20)).then_some(lower));
    }
    (top, called)
}
