//! Strays: strict sheets with one line exchanged for a call of the body's
//! own name or of a higher one. Some have a fault of typing besides, or a
//! second such call.

use crate::draft::{line, render, Draft, Line};
use crate::mutate::mutate;
use crate::rng::Rng;
use crate::walk::{scenes, Scene};
use second::fit::FitTable;
use second::sheet::{Instruction, Kind, Member};
use second::Sheet;
use std::collections::BTreeSet;

/// How often a line is looked for, and how often a fault.
const TRIES: usize = 40;
const FAULT_TRIES: usize = 12;

/// The changes of `mutate` that mostly are faults of typing. They leave
/// every line in its place.
const FAULTS: [u64; 5] = [4, 5, 6, 12, 14];

/// Which name is called.
#[derive(Clone, Copy, Debug, PartialEq, Eq)]
enum Called {
    Own,
    Next,
    Higher,
    /// Any of these.
    Any,
}

/// In which body.
#[derive(Clone, Copy, Debug, PartialEq, Eq)]
enum Where {
    First,
    Last,
    /// A form that no `new` or `device` names.
    Idle,
    Any,
}

/// What stands in the sheet besides.
#[derive(Clone, Copy, Debug, PartialEq, Eq)]
enum Besides {
    Nothing,
    FaultBefore,
    FaultAfter,
    Another,
}

/// What a stray should be like.
#[derive(Clone, Copy, Debug)]
pub struct Wish {
    called: Called,
    place: Where,
    besides: Besides,
}

impl Wish {
    /// The wish of this number; all come round in turn.
    pub fn of(number: u64) -> Wish {
        let called = [Called::Own, Called::Next, Called::Higher];
        let place = [Where::First, Where::Any, Where::Last, Where::Idle];
        let besides = [
            Besides::Nothing,
            Besides::FaultBefore,
            Besides::Nothing,
            Besides::FaultAfter,
            Besides::Another,
        ];
        let at = |step: u64, count: usize| (number / step) as usize % count;
        Wish {
            called: called[at(1, 3)],
            place: place[at(3, 4)],
            besides: besides[at(12, 5)],
        }
    }
}

/// The sheet with such a call; a near one where the wish cannot come true.
pub fn stray(rng: &mut Rng, mut draft: Draft, wish: Wish) -> Draft {
    let anywhere = Wish {
        called: Called::Any,
        place: Where::Any,
        ..wish
    };
    let found = find(rng, &draft, wish).or_else(|| find(rng, &draft, anywhere));
    let Some((place, call)) = found else {
        return draft;
    };
    draft[place] = call;
    match wish.besides {
        Besides::Nothing => {}
        Besides::Another => {
            if let Some((place, call)) = find(rng, &draft, anywhere) {
                draft[place] = call;
            }
        }
        Besides::FaultBefore => add_fault(rng, &mut draft, place, true),
        Besides::FaultAfter => add_fault(rng, &mut draft, place, false),
    }
    draft
}

/// A line to put in another's place so that the wish comes true and the
/// sheet remains well typed.
fn find(rng: &mut Rng, draft: &Draft, wish: Wish) -> Option<(usize, Line)> {
    let sheet = second::read(&render(draft)).ok()?;
    let fit = FitTable::of(&sheet.rows);
    let mut scenes = scenes(&sheet);
    scenes.retain(|scene| scene.name.is_some());
    let scenes = at_place(&sheet, &scenes, wish.place);
    for _ in 0..TRIES {
        let scene = rng.try_pick(&scenes)?;
        let Some(call) = any_call(rng, &sheet, &fit, scene, wish.called) else {
            continue;
        };
        let place = scene.placed.line as usize - 1;
        let mut tried = draft.clone();
        tried[place] = call.clone();
        if second::verdict(&render(&tried)).is_ok() {
            return Some((place, call));
        }
    }
    None
}

/// The instructions of the first body, of the last or of idle forms.
fn at_place<'a>(sheet: &Sheet, all: &'a [Scene<'a>], place: Where) -> Vec<&'a Scene<'a>> {
    let form = |scene: &Scene| scene.own.map_or(0, |own| own.line);
    let body = |scene: &Scene| (form(scene), scene.name);
    let (first, last) = (all.first().map(body), all.last().map(body));
    let made = made(sheet, all);
    let wanted = |scene: &Scene| match place {
        Where::First => first == Some(body(scene)),
        Where::Last => last == Some(body(scene)),
        Where::Idle => !made.contains(&form(scene)),
        Where::Any => true,
    };
    all.iter().filter(|scene| wanted(scene)).collect()
}

/// The lines of the forms that a `new` or a `device` names.
fn made(sheet: &Sheet, bodies: &[Scene]) -> BTreeSet<u32> {
    let bodies = bodies.iter().map(|scene| scene.placed);
    let made = bodies.chain(&sheet.main).filter_map(|placed| {
        let Instruction::New { form, .. } = placed.instruction else {
            return None;
        };
        Some(form)
    });
    let devices = sheet.devices.iter().map(|device| device.form);
    let forms = made.chain(devices);
    forms
        .map(|form| sheet.forms[usize::from(form)].line)
        .collect()
}

/// A well-typed call of such a name, without a look at later lines.
fn any_call(
    rng: &mut Rng,
    sheet: &Sheet,
    fit: &FitTable,
    scene: &Scene,
    called: Called,
) -> Option<Line> {
    let own = scene.name?;
    let wanted = |name: u16| match called {
        Called::Own => name == own,
        Called::Next => name == own + 1,
        Called::Higher => name > own + 1,
        Called::Any => name >= own,
    };
    // Later lines may use what this line fills, so mostly it goes on to fit.
    let (_, old) = scene.passing(sheet, &scene.placed.instruction)?;
    let bold = rng.chance(20);
    let suits = |row: u16| bold || fit.fits(row, old);
    let mut calls = Vec::new();
    for (slot, row) in scene.slots.iter().enumerate() {
        for Member { name, kind } in &sheet.rows[usize::from(*row)].members {
            match kind {
                Kind::Method { argument, result } if wanted(*name) && suits(*result) => {
                    calls.push((slot, *name, *argument));
                }
                _ => {}
            }
        }
    }
    let (slot, name, asked) = rng.try_pick(&calls)?;
    let given: Vec<u32> = (0..scene.slots.len())
        .filter(|given| fit.fits(scene.slots[*given], asked))
        .map(|given| given as u32)
        .collect();
    let given = rng.try_pick(&given)?;
    Some(line("call", &[slot as u32, name.into(), given]))
}

/// A fault of typing on a line before this one, or after it.
pub fn add_fault(rng: &mut Rng, draft: &mut Draft, place: usize, before: bool) {
    for _ in 0..FAULT_TRIES {
        let mut tried = draft.clone();
        let change = rng.pick(&FAULTS);
        mutate(rng, &mut tried, change);
        let Err(refusal) = second::verdict(&render(&tried)) else {
            continue;
        };
        let right_place = match before {
            true => (refusal.line as usize) < place + 1,
            false => refusal.line as usize > place + 1,
        };
        let typing = (8..=10).contains(&refusal.number());
        if typing && right_place && tried[place] == draft[place] {
            *draft = tried;
            return;
        }
    }
}
