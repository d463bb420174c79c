//! Who holds what in a state.

use crate::machine::{Machine, FIRST_KEPT, STORE};
use crate::sheet::{Part, Placed};

/// Main's number as a holder.
pub const MAIN: u16 = 256;
/// How many holders a group may list, repeats included.
pub const GROUP_LIMIT: usize = 16;

/// Whether an object of the state is a resource.
pub fn is_resource(machine: &Machine, object: u16) -> bool {
    let form = machine.objects[usize::from(object)].form;
    let row = machine.sheet.forms[usize::from(form)].row;
    machine.sheet.rows[usize::from(row)].resource
}

/// Main, then the resource objects ascending.
pub fn holders(machine: &Machine) -> Vec<u16> {
    let objects = 0..machine.objects.len() as u16;
    let resources = objects.filter(|object| is_resource(machine, *object));
    std::iter::once(MAIN).chain(resources).collect()
}

/// The holder of each frame, the lowest first. A pure receiver's frame
/// belongs to the holder beneath, so that what it makes is held.
pub fn frame_holders(machine: &Machine) -> Vec<u16> {
    let mut holder = MAIN;
    let mut answer = Vec::new();
    for frame in &machine.frames {
        match frame.receiver {
            Some(receiver) if is_resource(machine, receiver) => holder = receiver,
            _ => {}
        }
        answer.push(holder);
    }
    answer
}

/// Whether a filled slot of a frame counts: an instruction not yet taken
/// names it, or it is the final slot. Main's final slot stays; a body's is
/// gone with its frame when it returns.
pub fn slot_counts(machine: &Machine, frame: usize, slot: usize) -> bool {
    let frame = &machine.frames[frame];
    slot == frame.final_slot() || names(frame.left(), slot)
}

/// Whether a kept value of an object counts: some body of its form names
/// its slot.
pub fn kept_counts(machine: &Machine, object: u16, place: usize) -> bool {
    let form = machine.objects[usize::from(object)].form;
    let parts = &machine.sheet.forms[usize::from(form)].parts;
    parts.iter().any(|part| match part {
        Part::Body(code) => names(code, FIRST_KEPT + place),
        Part::Init { .. } => false,
    })
}

/// Whether one of the instructions names the slot.
fn names(code: &[Placed], slot: usize) -> bool {
    code.iter()
        .any(|placed| placed.instruction.names(slot as u16))
}

/// A holder's authority, ascending; none if the number is no holder.
pub fn authority_of(machine: &Machine, holder: u32) -> Option<Vec<u16>> {
    joined(machine, &[holder], Counted::Usable)
}

/// The joined authority of the listed holders, ascending; none if the list
/// is too long or has a number that is no holder.
pub fn group_of(machine: &Machine, holders: &[u32]) -> Option<Vec<u16>> {
    if holders.len() > GROUP_LIMIT {
        return None;
    }
    joined(machine, holders, Counted::Usable)
}

/// What a holder's authority was when every filled slot and every kept value
/// counted; none if the number is no holder.
pub fn held_before(machine: &Machine, holder: u32) -> Option<Vec<u16>> {
    joined(machine, &[holder], Counted::All)
}

/// Which filled slots and kept values count.
#[derive(Clone, Copy, PartialEq, Eq)]
enum Counted {
    /// Those that code can still name, and final slots.
    Usable,
    All,
}

/// What the listed holders hold together, ascending; none if a number is no
/// holder.
fn joined(machine: &Machine, holders: &[u32], counted: Counted) -> Option<Vec<u16>> {
    let mut held = [false; STORE];
    for holder in holders {
        join(machine, *holder, counted, &mut held)?;
    }
    Some(ascending(&held))
}

/// Adds a holder's authority to the marked objects; none if the number is
/// no holder.
fn join(machine: &Machine, holder: u32, counted: Counted, held: &mut [bool; STORE]) -> Option<()> {
    let holder = u16::try_from(holder).ok()?;
    let all = counted == Counted::All;
    let mut hold = |value: u16| held[usize::from(value)] |= is_resource(machine, value);
    if holder != MAIN {
        let object = machine.objects.get(usize::from(holder))?;
        if !is_resource(machine, holder) {
            return None;
        }
        hold(holder);
        for (place, value) in object.kept.iter().enumerate() {
            if all || kept_counts(machine, holder, place) {
                hold(*value);
            }
        }
        for field in &object.fields {
            hold(field.1);
        }
    }
    let owners = frame_holders(machine).into_iter().enumerate();
    for (frame, _) in owners.filter(|(_, owner)| *owner == holder) {
        for (slot, value) in machine.frame_slots(frame).iter().enumerate() {
            if all || slot_counts(machine, frame, slot) {
                hold(*value);
            }
        }
    }
    Some(())
}

/// The numbers of the marked objects.
fn ascending(held: &[bool; STORE]) -> Vec<u16> {
    let objects = 0..STORE as u16;
    objects
        .filter(|object| held[usize::from(*object)])
        .collect()
}
