//! Single changes to well-typed sheets, aimed at the refusals 3 to 10 and 14.

use crate::draft::{slot_places, Draft, Line};
use crate::rng::Rng;

const KEYS: [&str; 17] = [
    "types", "type", "def", "var", "forms", "form", "keep", "init", "body", "devices", "device",
    "main", "new", "call", "get", "put", "copy",
];

/// Numbers at or near a limit.
const EDGES: [u32; 14] = [0, 1, 2, 8, 9, 31, 32, 33, 63, 64, 65, 256, 65_535, 65_536];

/// How many kinds of change there are.
pub const CHANGES: u64 = 16;

/// Makes the change of this number, or a near one where it cannot be made.
pub fn mutate(rng: &mut Rng, draft: &mut Draft, change: u64) {
    let done = match change {
        0 | 1 => change_number(rng, draft, &KEYS),
        2 => exchange_key(rng, draft),
        3 => drop_double_or_swap(rng, draft),
        4 => flip_kind(rng, draft),
        5 => change_name(rng, draft),
        6 | 7 => change_slot(rng, draft),
        8 => repeat_name(rng, draft),
        9 => copy_row(rng, draft),
        10 => change_number(rng, draft, &["keep", "init", "form"]),
        11 => pass_limit(rng, draft),
        12 => exchange_instruction(rng, draft),
        13 => change_number(rng, draft, &["def", "var"]),
        14 => mix_pure(rng, draft),
        _ => change_number(rng, draft, &["new", "call", "get", "put", "copy"]),
    };
    if done.is_none() {
        change_number(rng, draft, &KEYS);
    }
}

/// A line with one of these keys, in half of the cases a late one.
fn find(rng: &mut Rng, draft: &Draft, keys: &[&str]) -> Option<usize> {
    let places: Vec<usize> = (0..draft.len())
        .filter(|place| keys.contains(&draft[*place].key))
        .collect();
    let late = &places[places.len() / 2..];
    if rng.chance(50) {
        rng.try_pick(late)
    } else {
        rng.try_pick(&places)
    }
}

/// Another number in place of this one, mostly near it.
pub fn other(rng: &mut Rng, old: u32) -> u32 {
    match rng.below(4) {
        0 => old + 1,
        1 => old.saturating_sub(1),
        2 => rng.below(12) as u32,
        _ => rng.pick(&EDGES),
    }
}

fn change_number(rng: &mut Rng, draft: &mut Draft, keys: &[&str]) -> Option<()> {
    let place = find(rng, draft, keys)?;
    let numbers = &mut draft[place].numbers;
    let number = rng.below(numbers.len());
    numbers[number] = other(rng, numbers[number]);
    Some(())
}

fn exchange_key(rng: &mut Rng, draft: &mut Draft) -> Option<()> {
    let place = find(rng, draft, &KEYS)?;
    draft[place].key = rng.pick(&KEYS);
    Some(())
}

fn drop_double_or_swap(rng: &mut Rng, draft: &mut Draft) -> Option<()> {
    let place = find(rng, draft, &KEYS)?;
    match rng.below(4) {
        0 => {
            draft.remove(place);
        }
        1 => draft.insert(place, draft[place].clone()),
        2 => {
            let second = rng.below(draft.len());
            draft.swap(place, second);
        }
        _ => {
            let next = (place + 1) % draft.len();
            draft.swap(place, next);
        }
    }
    Some(())
}

/// Pure for resource or the other way round.
fn flip_kind(rng: &mut Rng, draft: &mut Draft) -> Option<()> {
    let place = find(rng, draft, &["type"])?;
    draft[place].numbers[0] ^= 1;
    Some(())
}

/// A resource row kept by a pure form, or a form's row made pure.
fn mix_pure(rng: &mut Rng, draft: &mut Draft) -> Option<()> {
    let heads: Vec<usize> = (0..draft.len())
        .filter(|place| draft[*place].key == "type")
        .collect();
    let pure = |row: u32| draft[heads[row as usize]].numbers[0] == 0;
    let resources: Vec<u32> = (0..heads.len() as u32).filter(|row| !pure(*row)).collect();
    let mut changes = Vec::new();
    let mut own = 0;
    for (place, line) in draft.iter().enumerate() {
        match line.key {
            "form" => own = line.numbers[0],
            "keep" if pure(own) => {
                let kept = rng.try_pick(&resources)?;
                changes.push((place, kept));
            }
            "keep" if !pure(line.numbers[0]) => changes.push((heads[own as usize], 0)),
            "init" => changes.push((heads[own as usize], 0)),
            _ => {}
        }
    }
    let (place, number) = rng.try_pick(&changes)?;
    draft[place].numbers[0] = number;
    Some(())
}

fn change_name(rng: &mut Rng, draft: &mut Draft) -> Option<()> {
    let place = find(rng, draft, &["call", "get", "put"])?;
    let at = usize::from(draft[place].key == "call");
    let name = draft[place].numbers[at];
    draft[place].numbers[at] = other(rng, name);
    Some(())
}

fn change_slot(rng: &mut Rng, draft: &mut Draft) -> Option<()> {
    let place = find(rng, draft, &["new", "call", "put", "copy"])?;
    let line = &mut draft[place];
    let mut slots = slot_places(line);
    slots.retain(|slot| *slot < line.numbers.len());
    let at = rng.try_pick(&slots)?;
    line.numbers[at] = rng.below(8) as u32;
    Some(())
}

/// Gives a member the name of the member before it, or a lower one.
fn repeat_name(rng: &mut Rng, draft: &mut Draft) -> Option<()> {
    let member = |line: &Line| matches!(line.key, "def" | "var");
    let places: Vec<usize> = (1..draft.len())
        .filter(|place| member(&draft[*place]) && member(&draft[place - 1]))
        .collect();
    let place = rng.try_pick(&places)?;
    let before = draft[place - 1].numbers[0];
    draft[place].numbers[0] = rng.between(0, before as usize) as u32;
    Some(())
}

/// Writes an earlier row over a later one with as many members.
fn copy_row(rng: &mut Rng, draft: &mut Draft) -> Option<()> {
    let heads: Vec<usize> = (0..draft.len())
        .filter(|place| draft[*place].key == "type")
        .collect();
    let mut pairs = Vec::new();
    for (count, late) in heads.iter().enumerate() {
        for early in &heads[..count] {
            if draft[*early].numbers[1] == draft[*late].numbers[1] {
                pairs.push((*early, *late));
            }
        }
    }
    let (early, late) = rng.try_pick(&pairs)?;
    for line in 0..=draft[early].numbers[1] as usize {
        draft[late + line] = draft[early + line].clone();
    }
    Some(())
}

/// Sets a count, kind or name just outside its limit.
fn pass_limit(rng: &mut Rng, draft: &mut Draft) -> Option<()> {
    let place = find(rng, draft, &KEYS)?;
    let low = rng.chance(50);
    let line = &mut draft[place];
    let (at, number) = match line.key {
        "types" | "forms" => (0, 65),
        "type" if low => (0, 2),
        "type" | "form" => (1, 9),
        "body" | "devices" | "main" if low => (0, 0),
        "devices" => (0, 9),
        "body" | "main" => (0, 33),
        "def" | "var" | "get" | "put" => (0, 64),
        "call" => (1, 64),
        _ => (0, 65_535),
    };
    line.numbers[at] = number;
    Some(())
}

/// Another instruction with the same numbers.
fn exchange_instruction(rng: &mut Rng, draft: &mut Draft) -> Option<()> {
    let place = find(rng, draft, &["new", "call", "get", "put", "copy"])?;
    let line = &mut draft[place];
    line.key = match line.numbers.len() {
        1 => rng.pick(&["new", "get", "copy"]),
        2 => rng.pick(&["new", "put"]),
        _ => rng.pick(&["new", "call"]),
    };
    Some(())
}
