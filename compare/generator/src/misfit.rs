//! Misfits: well-typed sheets with one line exchanged for another whose
//! values do not fit. The lines before it are as they were, so that it is
//! the first at fault.

use crate::cases::{cases, Case, CASES};
use crate::draft::{line, render, Draft, Line};
use crate::plan::well_typed;
use crate::rng::Rng;
use crate::style::CROSSED;
use crate::walk::{scenes, starts, Passing, Scene, Start};
use second::fit::FitTable;
use second::sheet::{Instruction, Kind, Row, KEEP_LIMIT, NAME_LIMIT};
use second::Sheet;

/// How many sheets are searched for a line, and how many lines are tried in
/// each of them.
const SHEETS: usize = 100;
const TRIES: usize = 200;

/// A sheet with a misfit; the number decides of which case, and whether it
/// is the only one of its line. Where none is found the sheet is well typed.
pub fn misfit(rng: &mut Rng, number: u64) -> Draft {
    let wishes = wishes();
    let wish = wishes[number as usize % wishes.len()];
    let mut draft = Draft::new();
    for _ in 0..SHEETS {
        draft = match rng.chance(50) {
            true => well_typed(rng, &CROSSED),
            false => crate::any_well_typed(rng),
        };
        raise_names(rng, &mut draft);
        if let Some((place, line)) = find(rng, &draft, wish) {
            draft[place] = line;
            break;
        }
    }
    draft
}

/// Each case, alone and beside other misfits, as far as it can be.
fn wishes() -> Vec<(Case, bool)> {
    let mut wishes = Vec::new();
    for (case, _, [alone, several]) in CASES {
        wishes.extend(alone.then_some((case, false)));
        wishes.extend(several.then_some((case, true)));
    }
    wishes
}

/// The name on a line, if it has one.
fn name(line: &mut Line) -> Option<&mut u32> {
    match line.key {
        "def" | "var" | "get" | "put" => line.numbers.first_mut(),
        "call" => line.numbers.get_mut(1),
        _ => None,
    }
}

/// Raises all names by the same number, in some sheets up to the limit.
fn raise_names(rng: &mut Rng, draft: &mut Draft) {
    let names: Vec<&mut u32> = draft.iter_mut().filter_map(name).collect();
    let highest = names.iter().map(|name| **name).max();
    let most = usize::from(NAME_LIMIT) - highest.unwrap_or(0) as usize;
    let any = rng.between(0, most);
    let more = rng.pick(&[0, any, most]);
    for name in names {
        *name += more as u32;
    }
}

/// A line to put in another's place so that the wish comes true.
fn find(rng: &mut Rng, draft: &Draft, wish: (Case, bool)) -> Option<(usize, Line)> {
    let sheet = second::read(&render(draft)).ok()?;
    let fit = FitTable::of(&sheet.rows);
    let (starts, scenes) = (starts(&sheet), scenes(&sheet));
    for _ in 0..TRIES {
        let tried = if !starts.is_empty() && rng.chance(20) {
            let place = rng.below(starts.len());
            other_start(rng, &starts[place])
        } else {
            let place = rng.below(scenes.len());
            other_instruction(rng, &sheet, &scenes[place])
        };
        let Some((place, line, passing)) = tried else {
            continue;
        };
        let (cases, several) = cases(&sheet.rows, &fit, &passing);
        if cases.contains(&wish.0) && several == wish.1 {
            return Some((place as usize - 1, line));
        }
    }
    None
}

/// A line that may stand here: its place, itself and what goes where on it.
type Tried = Option<(u32, Line, Passing)>;

fn other_start(rng: &mut Rng, start: &Start) -> Tried {
    let kept = rng.below(start.own.keeps.len()) as u16;
    let line = line("init", &[kept.into()]);
    Some((start.line, line, start.passing(kept)))
}

fn other_instruction(rng: &mut Rng, sheet: &Sheet, scene: &Scene) -> Tried {
    let instruction = any_instruction(rng, sheet, scene)?;
    let (passing, _) = scene.passing(sheet, &instruction)?;
    Some((scene.placed.line, line_of(&instruction), passing))
}

/// An instruction whose parts are there, without a look at what fits.
fn any_instruction(rng: &mut Rng, sheet: &Sheet, scene: &Scene) -> Option<Instruction> {
    let filled: Vec<u16> = (0..scene.slots.len() as u16).collect();
    let row = |number: u16| &sheet.rows[usize::from(number)];
    let fields = || Some(names(row(scene.own?.row), false));
    Some(match rng.below(8) {
        0..=2 => any_new(rng, sheet, &filled)?,
        3..=4 => {
            let slot = rng.try_pick(&filled)?;
            let methods = names(row(scene.slots[usize::from(slot)]), true);
            Instruction::Call {
                slot,
                name: rng.try_pick(&methods)?,
                argument: rng.try_pick(&filled)?,
            }
        }
        5 => Instruction::Get {
            name: rng.try_pick(&fields()?)?,
        },
        6 => Instruction::Put {
            name: rng.try_pick(&fields()?)?,
            slot: rng.try_pick(&filled)?,
        },
        _ => Instruction::Copy {
            slot: rng.try_pick(&filled)?,
        },
    })
}

/// The names of a row's methods, or of its fields.
fn names(row: &Row, methods: bool) -> Vec<u16> {
    let is_method = |kind: Kind| matches!(kind, Kind::Method { .. });
    let members = row.members.iter();
    let wanted = members.filter(|member| is_method(member.kind) == methods);
    wanted.map(|member| member.name).collect()
}

/// A creation of any form, mostly with one slot for each kept value.
fn any_new(rng: &mut Rng, sheet: &Sheet, filled: &[u16]) -> Option<Instruction> {
    let form = rng.below(sheet.forms.len());
    let kept = sheet.forms[form].keeps.len();
    let any = rng.between(0, usize::from(KEEP_LIMIT));
    let count = rng.pick(&[kept, kept, kept, any]);
    let slots = (0..count).map(|_| rng.try_pick(filled));
    Some(Instruction::New {
        form: form as u16,
        slots: slots.collect::<Option<_>>()?,
    })
}

fn line_of(instruction: &Instruction) -> Line {
    let (key, numbers) = match instruction {
        Instruction::New { form, slots } => ("new", [&[*form], &slots[..]].concat()),
        Instruction::Call {
            slot,
            name,
            argument,
        } => ("call", vec![*slot, *name, *argument]),
        Instruction::Get { name } => ("get", vec![*name]),
        Instruction::Put { name, slot } => ("put", vec![*name, *slot]),
        Instruction::Copy { slot } => ("copy", vec![*slot]),
    };
    let numbers: Vec<u32> = numbers.into_iter().map(u32::from).collect();
    line(key, &numbers)
}
