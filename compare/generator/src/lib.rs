//! Seeded sheets, right and wrong. The seed and the index decide every
//! byte; the index alone decides the kind, in a fixed rotation.

#![forbid(unsafe_code)]

mod bound_edges;
pub mod bounds;
pub mod cases;
pub mod census;
mod code;
mod damage;
mod device;
mod device_edges;
mod device_faults;
pub mod device_refusals;
pub mod device_things;
mod devices;
mod draft;
mod edges;
mod group;
mod idle;
mod ladder;
mod mill;
mod misfit;
mod mutate;
mod pair;
pub mod passing;
mod plan;
mod readable;
pub mod report;
mod rng;
mod rows;
mod stray;
mod strict;
mod style;
mod summit;
mod tally;
mod tower;
pub mod usable;
pub mod walk;
mod wide;

use draft::{render, Draft};
use rng::Rng;

pub use bound_edges::{bound_edges, BoundAnswer};
pub use device_edges::{device_edges, Verdict};
pub use group::group;
pub use pair::pairs;
pub use strict::ROTATION as STRICT_ROTATION;

/// After this number of indexes the kinds come round again.
pub const ROTATION: u64 = 26;

/// The sheet of a seed and an index.
pub fn sheet(seed: u64, index: u64) -> Vec<u8> {
    let mut rng = Rng::new(seed, index);
    let round = index / ROTATION;
    match index % ROTATION {
        // Large sheets and sheets of mostly rows take turns.
        3 if round % 2 == 1 => render(&well_typed(&mut rng, 8)),
        kind @ 0..=7 => render(&well_typed(&mut rng, kind)),
        kind @ 8..=14 => {
            let mut draft = any_well_typed(&mut rng);
            // Seven changes a round; each has had its turn after three.
            let change = (round * 7 + kind - 8) % mutate::CHANGES;
            mutate::mutate(&mut rng, &mut draft, change);
            render(&draft)
        }
        kind @ 15..=16 => {
            let text = render(&any_well_typed(&mut rng));
            let kind = (round * 2 + kind - 15) % damage::DAMAGES;
            damage::damage(&mut rng, text, kind)
        }
        kind @ 17..=19 => edge(&mut rng, round * 3 + kind - 17),
        kind @ 20..=21 => render(&misfit::misfit(&mut rng, round * 2 + kind - 20)),
        22 => render(&device::device(&mut rng)),
        23 => device_edges::edge(round),
        kind => render(&device_faults::wrong(&mut rng, round * 2 + kind - 24)),
    }
}

/// A well-typed sheet for runs, beside the rotation: mills, whose runs are
/// long and make much use of fields.
pub fn mill(seed: u64, index: u64) -> Vec<u8> {
    render(&mill::mill(&mut Rng::new(seed, index)))
}

/// A well-typed sheet for the authority question, beside the rotation: many
/// of its slots and kept values are named by nothing, or by nothing any more.
pub fn idle(seed: u64, index: u64) -> Vec<u8> {
    render(&idle::idle(&mut Rng::new(seed, index)))
}

/// A well-typed sheet with one to eight devices, beside the rotation: main
/// uses them, passes them on, or does not name them.
pub fn device(seed: u64, index: u64) -> Vec<u8> {
    render(&device::device(&mut Rng::new(seed, index)))
}

/// A sheet that can be read, beside the rotation: it has any number of forms
/// and is mostly ill typed.
pub fn readable(seed: u64, index: u64) -> Vec<u8> {
    render(&readable::readable(&mut Rng::new(seed, index)))
}

/// A sheet for the question for the most steps, beside the rotation: it is
/// sure to finish, or one call away from that. The index decides the kind.
pub fn strict(seed: u64, index: u64) -> Vec<u8> {
    render(&strict::strict(&mut Rng::new(seed, index), index))
}

/// A well-typed sheet for the fit question, beside the rotation: many rows,
/// of many members, that differ in little.
pub fn wide(seed: u64, index: u64) -> Vec<u8> {
    render(&wide::wide(&mut Rng::new(seed, index)))
}

/// A well-typed sheet: seven styles, towers, and sheets of mostly rows.
fn well_typed(rng: &mut Rng, kind: u64) -> Draft {
    match kind {
        0..=6 => plan::well_typed(rng, &style::ALL[kind as usize]),
        7 => tower::tower(rng),
        _ => plan::well_typed(rng, &style::ROWS),
    }
}

fn any_well_typed(rng: &mut Rng) -> Draft {
    let kind = rng.below(9) as u64;
    well_typed(rng, kind)
}

/// A sheet at a limit; long texts come after the listed edges.
fn edge(rng: &mut Rng, number: u64) -> Vec<u8> {
    let count = edges::EDGES.len() + edges::LENGTHS.len();
    let number = number as usize % count;
    match edges::EDGES.get(number) {
        Some(edge) => edge().into_bytes(),
        None => {
            let text = render(&any_well_typed(rng));
            let length = edges::LENGTHS[number - edges::EDGES.len()];
            edges::long_text(rng, text, length)
        }
    }
}
