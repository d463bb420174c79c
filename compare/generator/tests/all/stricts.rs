//! Strict sheets: what they have for the question for the most steps.

use crate::common::{against, bound};
use generator::bounds::{amount, Bounds, LIMIT, NEAR};
use generator::{strict, STRICT_ROTATION};
use second::sheet::{Instruction, Part};
use second::Sheet;
use std::collections::{BTreeMap, BTreeSet};

/// The first half of each round is strict.
fn stricts(seed: u64, count: u64) -> impl Iterator<Item = Vec<u8>> {
    let indexes = (0..count).filter(|index| index % STRICT_ROTATION < STRICT_ROTATION / 2);
    indexes.map(move |index| strict(seed, index))
}

#[test]
fn the_seed_and_the_index_decide_a_strict_sheet() {
    for index in 0..STRICT_ROTATION {
        assert_eq!(strict(5, index), strict(5, index));
        assert_ne!(strict(5, index), strict(5, index + STRICT_ROTATION));
        assert_ne!(strict(5, index), strict(6, index));
    }
}

#[test]
fn half_are_strict_and_all_can_be_read() {
    let mut all = Bounds::default();
    for index in 0..800 {
        let text = strict(23, index);
        let verdict = second::verdict(&text).map_err(|refusal| refusal.number());
        assert!(verdict.is_ok() || verdict.is_err_and(|number| number >= 8));
        if index % STRICT_ROTATION < STRICT_ROTATION / 2 {
            assert_eq!(verdict, Ok(()), "index {index}");
            assert_eq!(against(&text), [], "index {index}");
        }
        all.add(&text);
    }
    // A few sheets have no body in which another call could stand.
    assert!((400..410).contains(&(all.answered + all.beyond)), "{all:?}");
    assert!(all.answered > 250 && all.beyond > 80, "{all:?}");
    assert!(all.circular > 200 && all.others > 80, "{all:?}");
    assert!(all.near.iter().all(|count| *count > 30), "{all:?}");
}

/// On each side of the limit: next to it, a few steps away, and at most one
/// step in a hundred away.
#[test]
fn amounts_lie_close_to_the_limit_on_both_sides() {
    let mut close = [[0; 2]; 3];
    let (mut large, mut huge) = (0, 0);
    for text in stricts(24, 3_000) {
        let sheet = second::read(&text).expect("a sheet that can be read");
        let amount = amount(&sheet).expect("a strict sheet");
        let over = amount > LIMIT;
        let away = if over {
            amount - LIMIT - 1
        } else {
            LIMIT - amount
        };
        for (band, counts) in [0, 24, NEAR].iter().zip(&mut close) {
            counts[usize::from(over)] += u32::from(away <= *band);
        }
        large += u32::from(amount > u128::from(u64::MAX));
        huge += u32::from(amount == u128::MAX);
        assert_eq!(bound(&text).is_err(), over);
    }
    let [exact, few, percent] = close;
    assert!(exact.iter().all(|count| *count > 0), "{close:?}");
    assert!(few.iter().all(|count| *count > 50), "{close:?}");
    assert!(percent.iter().all(|count| *count > 100), "{close:?}");
    assert!(large > 50 && huge > 5, "{large} wide, {huge} very wide");
}

/// The sizes of the bodies of each name, by the forms they are in.
fn bodies(sheet: &Sheet) -> BTreeMap<u16, Vec<(usize, usize)>> {
    let mut bodies: BTreeMap<u16, Vec<(usize, usize)>> = BTreeMap::new();
    for (place, form) in sheet.forms.iter().enumerate() {
        let members = &sheet.rows[usize::from(form.row)].members;
        for (member, part) in members.iter().zip(&form.parts) {
            if let Part::Body(code) = part {
                let own = bodies.entry(member.name).or_default();
                own.push((place, code.len()));
            }
        }
    }
    bodies
}

/// The forms that are made, and the names that are called from main on.
fn used(sheet: &Sheet) -> (BTreeSet<u16>, BTreeSet<u16>) {
    let (mut made, mut called) = (BTreeSet::new(), BTreeSet::new());
    let all = sheet.forms.iter().flat_map(|form| &form.parts);
    let code = all.filter_map(|part| match part {
        Part::Body(code) => Some(code),
        Part::Init { .. } => None,
    });
    for placed in code.chain([&sheet.main]).flatten() {
        if let Instruction::New { form, .. } = placed.instruction {
            made.insert(form);
        }
    }
    made.extend(sheet.devices.iter().map(|device| device.form));
    for placed in &sheet.main {
        if let Instruction::Call { name, .. } = placed.instruction {
            called.insert(name);
        }
    }
    (made, called)
}

#[test]
fn names_have_several_bodies_and_forms_are_idle() {
    let (mut several, mut differ, mut idle, mut spare) = (0, 0, 0, 0);
    for text in stricts(25, 800) {
        let sheet = second::read(&text).expect("a sheet that can be read");
        let bodies = bodies(&sheet);
        let (made, called) = used(&sheet);
        let many = |own: &&Vec<(usize, usize)>| own.len() > 1;
        several += u32::from(bodies.values().any(|own| many(&own)));
        let unlike = |own: &Vec<(usize, usize)>| own.iter().any(|body| body.1 != own[0].1);
        differ += u32::from(bodies.values().any(unlike));
        idle += u32::from(made.len() < sheet.forms.len());
        // Lower names only are called, so the names above main's are spare.
        let highest = called.last().copied();
        spare += u32::from(bodies.keys().last() > highest.as_ref());
    }
    assert!(several > 150 && differ > 150, "{several}, {differ} of 400");
    assert!(idle > 150 && spare > 100, "{idle}, {spare} of 400");
}

/// A name that is over the limit where main's amount is not.
#[test]
fn names_over_the_limit_are_spared() {
    let mut spared = 0;
    for text in stricts(26, 800) {
        let sheet = second::read(&text).expect("a sheet that can be read");
        if bound(&text).is_err() {
            continue;
        }
        let mut names = bodies(&sheet).into_keys();
        spared += u32::from(names.any(|name| over(&sheet, name)));
    }
    assert!(spared > 50, "{spared} of 400");
}

/// Whether a call of this name alone is over the limit.
fn over(sheet: &Sheet, name: u16) -> bool {
    let mut sheet = sheet.clone();
    let mut call = sheet.main[0].clone();
    call.instruction = Instruction::Call {
        slot: 0,
        name,
        argument: 0,
    };
    sheet.main = vec![call];
    amount(&sheet).is_some_and(|amount| amount > LIMIT)
}
