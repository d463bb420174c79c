//! Laws that every accepted sheet obeys: how authority grows, and how the
//! answers to the questions belong together.

use generator::{device, group, idle, mill, sheet};
use second::authority::{authority_of, frame_holders, holders, is_resource};
use second::machine::{Machine, Outcome};
use second::sheet::Instruction;
use second::MAIN;
use std::collections::{BTreeMap, BTreeSet};

/// The authority of each holder of a state.
type Held = BTreeMap<u16, Vec<u16>>;

fn held(machine: &Machine) -> Held {
    let authority = |holder: u16| authority_of(machine, holder.into()).expect("a holder");
    let all = holders(machine).into_iter();
    all.map(|holder| (holder, authority(holder))).collect()
}

/// What is needed of the state before a step.
struct Before {
    held: Held,
    top: u16,
    receiver: Option<u16>,
    next: Option<Instruction>,
}

fn before(machine: &Machine) -> Before {
    let top = machine.frames.len() - 1;
    Before {
        held: held(machine),
        top: frame_holders(machine)[top],
        receiver: machine.frames[top].receiver,
        next: machine.next().map(|placed| placed.instruction.clone()),
    }
}

/// Whether one of the three causes lets holder h have b after this step.
fn allowed(before: &Before, after: &Machine, h: u16, b: u16) -> bool {
    let had = |holder: u16| before.held.get(&holder).is_some_and(|all| all.contains(&b));
    let frame = after.frames.len() - 1;
    match before.next {
        Some(Instruction::New { .. }) => {
            let made = after.objects.len() as u16 - 1;
            let kept = &after.objects[usize::from(made)].kept;
            (h == before.top && b == made)
                || (h == made && (b == made || (kept.contains(&b) && had(before.top))))
        }
        Some(Instruction::Call { .. }) => {
            let argument = after.frame_slots(frame)[1];
            after.frames[frame].receiver == Some(h) && b == argument && had(before.top)
        }
        Some(_) => false,
        None => {
            let other = before
                .receiver
                .filter(|g| is_resource(after, *g) && *g != h);
            let returned = after.frame_slots(frame).last() == Some(&b);
            returned && other.is_some_and(had) && frame_holders(after)[frame] == h
        }
    }
}

/// Shows the first steps of a run: what is needed of the state before a
/// step, the state after it, and who holds what there.
fn each_step(text: &[u8], steps: u32, mut look: impl FnMut(&Before, &Machine, &Held)) {
    let sheet = second::read(text).expect("an accepted sheet");
    let mut machine = Machine::start(&sheet);
    for budget in 1..=steps {
        let before = before(&machine);
        machine.run(budget);
        if machine.steps < budget {
            break;
        }
        look(&before, &machine, &held(&machine));
    }
}

/// Follows a run and counts the resources that are new to a holder.
fn follow(text: &[u8], steps: u32) -> usize {
    let mut count = 0;
    each_step(text, steps, |before, after, now| {
        for (holder, now) in now {
            let old = before.held.get(holder).cloned().unwrap_or_default();
            for object in now.iter().filter(|object| !old.contains(object)) {
                assert!(
                    allowed(before, after, *holder, *object),
                    "step {}: {object} is new to {holder}",
                    after.steps
                );
                count += 1;
            }
        }
    });
    count
}

#[test]
fn authority_grows_by_creation_call_and_return_only() {
    let (mut count, mut of_idle, mut of_device) = (0, 0, 0);
    for index in 0..600_u64 {
        let text = sheet(12, index);
        if second::verdict(&text).is_ok() {
            count += follow(&text, 150);
        }
        if index.is_multiple_of(4) {
            of_idle += follow(&idle(12, index), 150);
            of_device += follow(&device(12, index), 150);
        }
    }
    assert!(count > 3_000, "{count} resources were new to a holder");
    assert!(of_idle > 3_000, "{of_idle} in idle sheets");
    assert!(of_device > 2_000, "{of_device} in device sheets");
}

/// The members of a group, made or not.
type Group = BTreeSet<u16>;

/// What the members hold together; one that is no holder holds nothing.
fn joined(held: &Held, group: &Group) -> BTreeSet<u16> {
    let members = group.iter().filter_map(|member| held.get(member));
    members.flatten().copied().collect()
}

/// Why a group may have a resource that no member had before the step.
#[derive(Clone, Copy)]
enum Cause {
    Creation,
    Call,
    Return,
}

/// The cause that lets the group have b after this step, if there is one.
fn cause(before: &Before, after: &Machine, group: &Group, b: u16) -> Option<Cause> {
    let holder = |object: u16| object == MAIN || is_resource(after, object);
    let member = |object: u16| group.contains(&object) && holder(object);
    let had = before.held[&before.top].contains(&b);
    let outside = had && !member(before.top);
    let frame = after.frames.len() - 1;
    let slots = after.frame_slots(frame);
    match before.next {
        Some(Instruction::New { .. }) => {
            let made = after.objects.len() as u16 - 1;
            let kept = &after.objects[usize::from(made)].kept;
            let by = member(before.top) && b == made;
            let of = member(made) && (b == made || (had && kept.contains(&b)));
            (by || of).then_some(Cause::Creation)
        }
        Some(Instruction::Call { .. }) => {
            let on = after.frames[frame].receiver.is_some_and(member);
            (outside && on && b == slots[1]).then_some(Cause::Call)
        }
        Some(_) => None,
        None => {
            let to = member(frame_holders(after)[frame]);
            (outside && to && slots.last() == Some(&b)).then_some(Cause::Return)
        }
    }
}

/// Follows a run and counts by their causes the resources that are new to
/// a group of several.
fn follow_groups(text: &[u8], steps: u32, groups: &[Group], gains: &mut [u32; 3]) {
    each_step(text, steps, |before, after, now| {
        for group in groups {
            let old = joined(&before.held, group);
            for object in joined(now, group).difference(&old) {
                let Some(cause) = cause(before, after, group, *object) else {
                    panic!("step {}: {object} is new to {group:?}", after.steps);
                };
                gains[cause as usize] += u32::from(group.len() > 1);
            }
        }
    });
}

/// Groups for a run that ends with this many objects: lists, pairs of lists
/// joined, and all of these without main, which holds the most.
fn groups(index: u64, objects: u16) -> Vec<Group> {
    let members = |number| group(15, index * 6 + number, objects).into_iter();
    let list = |number| members(number).map(|member| member as u16).collect();
    let mut groups: Vec<Group> = (0..6).map(list).collect();
    for place in 0..5 {
        groups.push(&groups[place] | &groups[place + 1]);
    }
    for place in 0..groups.len() {
        groups.push(&groups[place] - &Group::from([MAIN]));
    }
    groups
}

#[test]
fn a_group_gains_by_creation_call_and_return_only() {
    let mut gains = [0; 3];
    for index in 0..600_u64 {
        let mut texts = vec![sheet(15, index), mill(15, index)];
        if index.is_multiple_of(6) {
            texts.extend([idle(15, index), device(15, index)]);
        }
        for text in texts {
            if let Ok(run) = second::run(&text, 100) {
                let groups = groups(index, run.objects);
                follow_groups(&text, 100, &groups, &mut gains);
            }
        }
    }
    let [creations, calls, returns] = gains;
    assert!(creations > 20_000, "{creations} gains by creation");
    assert!(calls > 600, "{calls} gains by call");
    assert!(returns > 200, "{returns} gains by return");
}

/// What makes the sheet of a seed and an index.
type Make = fn(u64, u64) -> Vec<u8>;

#[test]
fn the_printed_answer_agrees_with_the_questions() {
    for (index, make) in (0..300).flat_map(|index| [(index, sheet as Make), (index, device)]) {
        let text = make(13, index);
        let expected = match second::run(&text, 10_000) {
            Err(refusal) => second::refusal_lines(refusal),
            Ok(run) => {
                let mut lines = String::from("verdict=0\nline=0\n");
                lines += &format!("outcome={}\n", run.outcome as u8);
                lines += &format!("steps={}\nvalue={}\n", run.steps, run.value);
                for holder in std::iter::once(256).chain(0..u32::from(run.objects)) {
                    if let Ok(held) = second::authority(&text, 10_000, holder) {
                        lines += &second::holder_line(holder, &held);
                    }
                }
                lines
            }
        };
        assert_eq!(second::print(&text), expected, "index {index}");
    }
}

/// Each budget up to the step count is spent; a larger one changes nothing.
#[test]
fn the_steps_are_those_of_the_budget() {
    for index in 0..200 {
        let text = sheet(14, index);
        let Ok(whole) = second::run(&text, 400) else {
            continue;
        };
        for budget in [0, 1, whole.steps / 2, whole.steps.saturating_sub(1)] {
            let part = second::run(&text, budget).expect("an accepted sheet");
            if budget < whole.steps {
                assert_eq!((part.outcome, part.steps), (Outcome::Spent, budget));
                assert!(part.objects <= whole.objects);
            }
        }
        if whole.outcome != Outcome::Spent {
            assert_eq!(second::run(&text, 401), Ok(whole));
            let at_end = second::run(&text, whole.steps).expect("an accepted sheet");
            assert_eq!(at_end.steps, whole.steps);
            assert_eq!(
                at_end.outcome == Outcome::Done,
                whole.outcome == Outcome::Done
            );
        }
    }
}
