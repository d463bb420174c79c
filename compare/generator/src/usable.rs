//! What the states of a run have for the authority question: slots and kept
//! values that count or do not, and holders that have less for it.

use crate::tally;
use second::authority::{authority_of, held_before, holders, is_resource};
use second::authority::{kept_counts, slot_counts};
use second::machine::{Machine, FIRST_KEPT};
use second::sheet::{Instruction, Part};
use second::{Outcome, Sheet};

/// A thing of some state. All slots and values are resources.
#[derive(Clone, Copy, Debug, PartialEq, Eq)]
pub enum Thing {
    NoLonger,
    Never,
    KeptIdle,
    StartAlone,
    StartLost,
    KeptElsewhere,
    WaitingLater,
    WaitingIdle,
    PureCounts,
    BodyFinal,
    MainFinal,
    Less,
    Equal,
}

/// The names of the things, in the order of their numbers.
pub const THINGS: [&str; 13] = [
    "a slot that counts no longer",
    "a slot that no line names",
    "a kept value that neither body nor init names",
    "a kept value that init alone names",
    "such a value that is held no longer",
    "a kept value that counts by another method's body",
    "a waiting frame's slot that counts",
    "a waiting frame's slot that counts no longer",
    "a pure receiver's slot that counts",
    "a body's final slot",
    "main's final slot",
    "a holder with less than before",
    "a holder with as much as before, others among it",
];

/// Steps of a run that are looked at, and how many of them lie between two
/// looks at all objects and holders.
const STEPS: u32 = 300;
const BETWEEN: u32 = 30;

type Found = [bool; THINGS.len()];

/// Which of the things occur among the first states of an accepted sheet.
pub fn things(sheet: &Sheet) -> Found {
    let mut found = Found::default();
    let mut machine = Machine::start(sheet);
    for budget in 0..=STEPS {
        let ended = machine.run(budget).outcome != Outcome::Spent;
        look_at_frames(&machine, &mut found);
        if ended || budget.is_multiple_of(BETWEEN) {
            look_at_kept(&machine, &mut found);
            look_at_holders(&machine, &mut found);
        }
        if ended {
            break;
        }
    }
    found
}

/// Notes a thing if it is there.
fn note(found: &mut Found, thing: Thing, there: bool) {
    found[thing as usize] |= there;
}

/// Looks at the top frame and the one beneath. Lower ones are as they were
/// when a single frame lay above them.
fn look_at_frames(machine: &Machine, found: &mut Found) {
    let top = machine.frames.len() - 1;
    let frames = machine.frames.iter().enumerate();
    for (place, frame) in frames.skip(top.saturating_sub(1)) {
        let receiver = frame.receiver;
        let pure = receiver.is_some_and(|receiver| !is_resource(machine, receiver));
        for (slot, value) in machine.frame_slots(place).iter().enumerate() {
            if !is_resource(machine, *value) {
                continue;
            }
            let names = |line: &Instruction| line.names(slot as u16);
            let named = frame.done().iter().any(|placed| names(&placed.instruction));
            let counts = slot_counts(machine, place, slot);
            let last = slot == frame.final_slot();
            note(found, Thing::NoLonger, named && !counts);
            note(found, Thing::Never, !named && !counts);
            let other = !named && !counts && is_kept(machine, receiver, slot);
            note(found, Thing::KeptElsewhere, other);
            note(found, Thing::WaitingLater, place < top && counts);
            note(found, Thing::WaitingIdle, place < top && named && !counts);
            note(found, Thing::PureCounts, pure && counts);
            note(found, Thing::BodyFinal, last && receiver.is_some());
            note(found, Thing::MainFinal, last && receiver.is_none());
        }
    }
}

/// Whether a slot has a kept value that counts for the receiver.
fn is_kept(machine: &Machine, receiver: Option<u16>, slot: usize) -> bool {
    let (Some(receiver), Some(place)) = (receiver, slot.checked_sub(FIRST_KEPT)) else {
        return false;
    };
    let kept = machine.objects[usize::from(receiver)].kept.len();
    place < kept && kept_counts(machine, receiver, place)
}

fn look_at_kept(machine: &Machine, found: &mut Found) {
    for holder in holders(machine).into_iter().skip(1) {
        let object = &machine.objects[usize::from(holder)];
        let parts = &machine.sheet.forms[usize::from(object.form)].parts;
        for (place, value) in object.kept.iter().enumerate() {
            if !is_resource(machine, *value) || kept_counts(machine, holder, place) {
                continue;
            }
            let starts = |part: &Part| match part {
                Part::Init { kept, .. } => usize::from(*kept) == place,
                Part::Body(_) => false,
            };
            if !parts.iter().any(starts) {
                note(found, Thing::KeptIdle, true);
                continue;
            }
            let held = authority_of(machine, holder.into()).unwrap_or_default();
            note(found, Thing::StartAlone, true);
            note(found, Thing::StartLost, !held.contains(value));
        }
    }
}

fn look_at_holders(machine: &Machine, found: &mut Found) {
    for holder in holders(machine) {
        let now = authority_of(machine, holder.into()).unwrap_or_default();
        let before = held_before(machine, holder.into()).unwrap_or_default();
        let others = now.iter().any(|object| *object != holder);
        note(found, Thing::Less, now.len() < before.len());
        note(found, Thing::Equal, now == before && others);
    }
}

/// How many sheets have each of the things.
#[derive(Clone, Debug, Default, PartialEq, Eq)]
pub struct Usable {
    pub sheets: u64,
    pub counts: [u64; THINGS.len()],
}

impl Usable {
    /// Looks at the run of an accepted sheet.
    pub fn add(&mut self, sheet: &Sheet) {
        self.sheets += 1;
        tally::add(&mut self.counts, things(sheet));
    }

    /// The things that no sheet has.
    pub fn missing(&self) -> Vec<String> {
        let missing = tally::missing(&THINGS, &self.counts);
        missing.map(String::from).collect()
    }

    /// A line for each thing, for the sheets of this name.
    pub fn lines(&self, name: &str) -> String {
        tally::lines(&format!("{name} with"), &THINGS, &self.counts)
    }
}
