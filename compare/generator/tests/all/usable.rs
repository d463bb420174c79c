//! Authority sets: within those of before, and other than those of rules
//! that are wrong in one point, in many sheets.

use generator::{device, idle, mill, sheet};
use second::authority::{authority_of, frame_holders, held_before, holders, is_resource};
use second::machine::{Machine, FIRST_KEPT};
use second::sheet::{Part, Placed};
use second::MAIN;
use std::collections::BTreeSet;

/// Budgets of the states that are looked at.
const BUDGETS: [u32; 6] = [2, 7, 20, 65, 300, 2_000];

/// Shows some states of an accepted sheet's run.
fn each_state(text: &[u8], mut look: impl FnMut(&Machine)) {
    if second::verdict(text).is_err() {
        return;
    }
    let sheet = second::read(text).expect("an accepted sheet");
    let mut machine = Machine::start(&sheet);
    for budget in BUDGETS {
        machine.run(budget);
        look(&machine);
    }
}

#[test]
fn each_set_lies_within_the_one_before() {
    let (mut less, mut equal) = (0, 0);
    for index in 0..300 {
        let texts = [sheet, mill, idle, device].map(|make| make(34, index));
        for text in texts {
            each_state(&text, |machine| {
                for holder in holders(machine) {
                    let now = authority_of(machine, holder.into()).expect("a holder");
                    let before = held_before(machine, holder.into()).expect("a holder");
                    let within = now.iter().all(|object| before.contains(object));
                    assert!(within, "index {index}, holder {holder}");
                    less += u32::from(now.len() < before.len());
                    equal += u32::from(now == before && now.len() > 1);
                }
            });
        }
    }
    assert!(less > 10_000 && equal > 2_000, "{less} less, {equal} equal");
}

/// A rule for the sets, right or wrong in one point.
#[derive(Clone, Copy, Debug, PartialEq, Eq)]
enum Rule {
    Right,
    EverySlot,
    EveryNamedSlot,
    EveryKept,
    NoKept,
    KeptByInit,
    KeptByEachBody,
    WaitingCallLeft,
    LastSoFar,
    NoBodyFinal,
    NoMainFinal,
    NoPureFrame,
}

const WRONG: [Rule; 11] = [
    Rule::EverySlot,
    Rule::EveryNamedSlot,
    Rule::EveryKept,
    Rule::NoKept,
    Rule::KeptByInit,
    Rule::KeptByEachBody,
    Rule::WaitingCallLeft,
    Rule::LastSoFar,
    Rule::NoBodyFinal,
    Rule::NoMainFinal,
    Rule::NoPureFrame,
];

fn names(code: &[Placed], slot: usize) -> bool {
    code.iter()
        .any(|placed| placed.instruction.names(slot as u16))
}

fn slot_counts(machine: &Machine, rule: Rule, place: usize, slot: usize) -> bool {
    let frame = &machine.frames[place];
    let main = frame.receiver.is_none();
    let waits = place + 1 < machine.frames.len();
    let last = machine.frame_slots(place).len() - 1;
    let by_final = match rule {
        Rule::NoBodyFinal => main,
        Rule::NoMainFinal => !main,
        _ => true,
    };
    let by_rule = match rule {
        Rule::EverySlot => true,
        Rule::EveryNamedSlot => names(frame.done(), slot),
        Rule::WaitingCallLeft => waits && names(&frame.done()[frame.done().len() - 1..], slot),
        Rule::LastSoFar => !waits && slot == last,
        _ => false,
    };
    names(frame.left(), slot) || (by_final && slot == frame.final_slot()) || by_rule
}

fn kept_counts(machine: &Machine, rule: Rule, object: u16, place: usize) -> bool {
    let form = machine.objects[usize::from(object)].form;
    let parts = &machine.sheet.forms[usize::from(form)].parts;
    let body = |part: &Part| match part {
        Part::Body(code) => Some(names(code, FIRST_KEPT + place)),
        Part::Init { .. } => None,
    };
    let init = |part: &Part| matches!(part, Part::Init { kept, .. } if usize::from(*kept) == place);
    let mut bodies = parts.iter().filter_map(body);
    match rule {
        Rule::EveryKept => true,
        Rule::NoKept => false,
        Rule::KeptByInit => bodies.any(|named| named) || parts.iter().any(init),
        Rule::KeptByEachBody => bodies.all(|named| named),
        _ => bodies.any(|named| named),
    }
}

/// A holder's set by one of the rules.
fn set(machine: &Machine, rule: Rule, holder: u16) -> BTreeSet<u16> {
    let mut all = Vec::new();
    if holder != MAIN {
        let object = &machine.objects[usize::from(holder)];
        all.push(holder);
        all.extend(object.fields.iter().map(|field| field.1));
        let kept = object.kept.iter().enumerate();
        let kept = kept.filter(|(place, _)| kept_counts(machine, rule, holder, *place));
        all.extend(kept.map(|kept| kept.1));
    }
    for (place, owner) in frame_holders(machine).into_iter().enumerate() {
        let receiver = machine.frames[place].receiver;
        let pure = receiver.is_some_and(|receiver| !is_resource(machine, receiver));
        if owner != holder || (pure && rule == Rule::NoPureFrame) {
            continue;
        }
        let slots = machine.frame_slots(place).iter().enumerate();
        let slots = slots.filter(|(slot, _)| slot_counts(machine, rule, place, *slot));
        all.extend(slots.map(|slot| slot.1));
    }
    let resources = all.into_iter().filter(|value| is_resource(machine, *value));
    resources.collect()
}

/// In how many of these sheets a wrong rule gives a holder another set.
fn told_apart(make: fn(u64, u64) -> Vec<u8>, count: u64) -> (u32, [u32; WRONG.len()]) {
    let (mut sheets, mut counts) = (0, [0; WRONG.len()]);
    for index in 0..count {
        let mut differs = None;
        each_state(&make(35, index), |machine| {
            let differs = differs.get_or_insert([false; WRONG.len()]);
            for holder in holders(machine) {
                let held = authority_of(machine, holder.into()).expect("a holder");
                let held = BTreeSet::from_iter(held);
                assert_eq!(held, set(machine, Rule::Right, holder), "index {index}");
                for (differs, rule) in differs.iter_mut().zip(WRONG) {
                    *differs = *differs || set(machine, rule, holder) != held;
                }
            }
        });
        sheets += u32::from(differs.is_some());
        for (count, differs) in counts.iter_mut().zip(differs.unwrap_or_default()) {
            *count += u32::from(differs);
        }
    }
    (sheets, counts)
}

#[test]
fn wrong_rules_are_told_apart() {
    let (sheets, counts) = told_apart(sheet, 800);
    for (rule, count) in WRONG.iter().zip(counts) {
        assert!(count > 0, "{rule:?}: none of {sheets}");
    }
    let (sheets, counts) = told_apart(idle, 200);
    assert_eq!(sheets, 200);
    for (rule, count) in WRONG.iter().zip(counts) {
        assert!(count > 10, "{rule:?}: {count} of 200");
    }
}
