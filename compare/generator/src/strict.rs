//! Sheets for the question for the most steps: about half of them are sure
//! to finish, the others are one call away from that.

use crate::bounds::{LIMIT, NEAR};
use crate::draft::Draft;
use crate::ladder::{ladder, Goal, Shape};
use crate::plan::well_typed;
use crate::rng::Rng;
use crate::stray::{stray, Wish};
use crate::style::STRICT;

/// How many kinds of strict sheets there are.
const KINDS: u64 = 8;
/// After this number of indexes the kinds come round again.
pub const ROTATION: u64 = 2 * KINDS;

/// Amounts that grow slowly, so that any number of steps can be made up.
const FINE: Shape = Shape {
    rungs: (36, 56),
    forms: 2,
    calls: (2, 2),
    reach: 2,
    others: 1,
    making: 10,
};

/// Wide bodies: amounts that are soon beyond the limit.
const TALL: Shape = Shape {
    rungs: (8, 64),
    forms: 2,
    calls: (1, 31),
    reach: 3,
    others: 2,
    making: 10,
};

/// One call a body, through all names or nearly so: the stack fills.
const CHAIN: Shape = Shape {
    rungs: (62, 64),
    forms: 1,
    calls: (1, 1),
    reach: 1,
    others: 4,
    making: 10,
};

/// Few names with several bodies: short runs, and the store may fill.
const LOW: Shape = Shape {
    rungs: (1, 9),
    forms: 4,
    calls: (0, 4),
    reach: 9,
    others: 6,
    making: 40,
};

/// The sheet of an index. The first kinds are strict, and each has its
/// neighbours that are not.
pub fn strict(rng: &mut Rng, index: u64) -> Draft {
    let (round, kind) = (index / ROTATION, index % ROTATION);
    let draft = strict_kind(rng, kind % KINDS);
    match kind.checked_sub(KINDS) {
        None => draft,
        Some(kind) => stray(rng, draft, Wish::of(round * KINDS + kind)),
    }
}

fn strict_kind(rng: &mut Rng, kind: u64) -> Draft {
    match kind {
        0..=2 => well_typed(rng, &STRICT[kind as usize]),
        3 => near(rng, 24),
        4 => near(rng, NEAR as usize),
        5 => {
            let goal = rng.pick(&[Goal::Top, Goal::Low]);
            ladder(rng, &TALL, goal)
        }
        6 => {
            let calls = rng.pick(&[(1, 1), (1, 1), (1, 2)]);
            let goal = rng.pick(&[Goal::Top, Goal::Top, Goal::Low]);
            ladder(rng, &Shape { calls, ..CHAIN }, goal)
        }
        _ => {
            let making = rng.pick(&[0, 40, 100]);
            ladder(rng, &Shape { making, ..LOW }, Goal::Top)
        }
    }
}

/// A ladder whose main takes about as many steps as the limit allows: this
/// many more or less, at most.
fn near(rng: &mut Rng, most: usize) -> Draft {
    let lowest = LIMIT - most as u128;
    let steps = lowest + rng.between(0, 2 * most) as u128;
    let calls = rng.pick(&[(2, 2), (2, 3)]);
    let reach = rng.pick(&[1, 2]);
    let shape = Shape {
        calls,
        reach,
        ..FINE
    };
    ladder(rng, &shape, Goal::Steps(steps))
}
