//! What accepted sheets with devices have, and the states of their runs.

use crate::tally;
use second::authority::{authority_of, is_resource};
use second::machine::Machine;
use second::sheet::{Instruction, CODE_LIMIT, DEVICE_LIMIT};
use second::{Outcome, Sheet, MAIN};

/// A thing of a sheet or of some state, after the counts of devices.
#[derive(Clone, Copy, Debug, PartialEq, Eq)]
pub enum Thing {
    Twins = 8,
    MadeToo,
    Unnamed,
    Copied,
    Called,
    Argument,
    Kept,
    Wider,
    FullMain,
    PureMade,
    MainHolds,
    MainHoldsNoMore,
    OnlyInSlots,
    KeptHolds,
    FieldHolds,
    DeviceHolds,
    DeviceMakes,
    DeviceCalls,
    AbovePure,
    Returned,
    Value,
    StoreFull,
    StackFull,
}

/// The names of the things, in the order of their numbers.
pub const THINGS: [&str; 31] = [
    "1 device",
    "2 devices",
    "3 devices",
    "4 devices",
    "5 devices",
    "6 devices",
    "7 devices",
    "8 devices",
    "two devices of one form",
    "a device's form that main makes too",
    "a device that no line of main names",
    "a device that main copies",
    "a device that main calls",
    "a device that main gives as an argument",
    "a device that main gives to be kept",
    "a device where another row is asked for",
    "8 devices and 32 lines of main",
    "a pure object beside devices",
    "a device that main holds at the start",
    "a device that main named and holds no longer",
    "a device that is in main's slots and not held",
    "an object that holds a device it keeps",
    "an object with a device in a field",
    "a device that holds another",
    "a device that makes an object",
    "a device that calls another",
    "a device called by a pure object's body",
    "a device that is given back",
    "a device as the run's value",
    "a full store with devices",
    "a full stack with devices",
];

/// Steps of a run that are looked at one by one, and how many of them lie
/// between two looks at all holders, but for the first ones.
const STEPS: u32 = 300;
const FIRST: u32 = 30;
const BETWEEN: u32 = 15;
/// Steps after which a run is left.
const LONG: u32 = 20_000;

type Found = [bool; THINGS.len()];

/// Which of the things an accepted sheet has; none if it has no device.
pub fn things(sheet: &Sheet) -> Found {
    let mut found = Found::default();
    let count = sheet.devices.len();
    if count == 0 {
        return found;
    }
    found[count - 1] = true;
    look_at_main(sheet, &mut found);
    look_at_passings(sheet, &mut found);
    look_at_run(sheet, &mut found);
    found
}

/// Notes a thing if it is there.
fn note(found: &mut Found, thing: Thing, there: bool) {
    found[thing as usize] |= there;
}

fn look_at_main(sheet: &Sheet, found: &mut Found) {
    let devices = &sheet.devices;
    let code = || sheet.main.iter().map(|placed| &placed.instruction);
    for (place, device) in devices.iter().enumerate() {
        let twin = devices[..place].iter().any(|old| old.form == device.form);
        note(found, Thing::Twins, twin);
        let makes = |line: &Instruction| matches!(line, Instruction::New { form, .. } if *form == device.form);
        note(found, Thing::MadeToo, code().any(makes));
        let named = code().any(|line| line.names(place as u16));
        note(found, Thing::Unnamed, !named);
    }
    let is_device = |slot: &u16| usize::from(*slot) < devices.len();
    for line in code() {
        match line {
            Instruction::New { slots, .. } => {
                note(found, Thing::Kept, slots.iter().any(is_device));
            }
            Instruction::Call { slot, argument, .. } => {
                note(found, Thing::Called, is_device(slot));
                note(found, Thing::Argument, is_device(argument));
            }
            Instruction::Copy { slot } => note(found, Thing::Copied, is_device(slot)),
            Instruction::Get { .. } | Instruction::Put { .. } => {}
        }
    }
    let full = devices.len() == usize::from(DEVICE_LIMIT);
    let long = sheet.main.len() == usize::from(CODE_LIMIT);
    note(found, Thing::FullMain, full && long);
}

/// Looks for a device whose row is not the one that is asked for.
fn look_at_passings(sheet: &Sheet, found: &mut Found) {
    let row = |form: u16| sheet.forms[usize::from(form)].row;
    let mut rows: Vec<u16> = sheet
        .devices
        .iter()
        .map(|device| row(device.form))
        .collect();
    let devices = rows.len();
    for placed in &sheet.main {
        let device = |slot: u16| (usize::from(slot) < devices).then(|| rows[usize::from(slot)]);
        let other = |slot: u16, asked: u16| device(slot).is_some_and(|own| own != asked);
        let filled = match &placed.instruction {
            Instruction::New { form, slots } => {
                let form = &sheet.forms[usize::from(*form)];
                let mut given = slots.iter().zip(&form.keeps);
                let wider = given.any(|(slot, keep)| other(*slot, keep.row));
                note(found, Thing::Wider, wider);
                form.row
            }
            Instruction::Call {
                slot,
                name,
                argument,
            } => {
                let own = &sheet.rows[usize::from(rows[usize::from(*slot)])];
                let Some((asked, result)) = own.method(*name) else {
                    return;
                };
                note(found, Thing::Wider, other(*argument, asked));
                result
            }
            Instruction::Copy { slot } => rows[usize::from(*slot)],
            Instruction::Get { .. } | Instruction::Put { .. } => return,
        };
        rows.push(filled);
    }
}

fn look_at_run(sheet: &Sheet, found: &mut Found) {
    let mut machine = Machine::start(sheet);
    for budget in 0..=STEPS {
        look_at_step(&machine, found);
        if budget < FIRST || budget.is_multiple_of(BETWEEN) {
            look_at_holders(&machine, found);
        }
        if machine.run(budget + 1).outcome != Outcome::Spent {
            break;
        }
    }
    look_at_holders(&machine, found);
    let answer = machine.run(LONG);
    let value = answer.outcome == Outcome::Done && usize::from(answer.value) < sheet.devices.len();
    note(found, Thing::Value, value);
    note(
        found,
        Thing::StoreFull,
        answer.outcome == Outcome::StoreFull,
    );
    note(
        found,
        Thing::StackFull,
        answer.outcome == Outcome::StackFull,
    );
}

/// Looks at the next step of a state.
fn look_at_step(machine: &Machine, found: &mut Found) {
    let devices = machine.sheet.devices.len();
    let is_device = |object: u16| usize::from(object) < devices;
    let top = machine.frames.len() - 1;
    let receiver = machine.frames[top].receiver;
    let own = receiver.filter(|receiver| is_device(*receiver));
    match machine.next().map(|placed| &placed.instruction) {
        Some(Instruction::New { .. }) => note(found, Thing::DeviceMakes, own.is_some()),
        Some(Instruction::Call { slot, .. }) => {
            let called = machine.frame_slots(top)[usize::from(*slot)];
            let pure = receiver.is_some_and(|receiver| !is_resource(machine, receiver));
            let other = own.is_some_and(|own| own != called);
            note(found, Thing::DeviceCalls, other && is_device(called));
            note(found, Thing::AbovePure, pure && is_device(called));
        }
        None if top > 0 => {
            let value = machine.frame_slots(top).last();
            let device = value.is_some_and(|value| is_device(*value));
            note(found, Thing::Returned, device);
        }
        _ => {}
    }
}

fn look_at_holders(machine: &Machine, found: &mut Found) {
    let devices = machine.sheet.devices.len() as u16;
    let held = |holder: u16| authority_of(machine, holder.into());
    let main = held(MAIN).unwrap_or_default();
    let done = machine.frames[0].done();
    for device in 0..devices {
        let named = done.iter().any(|placed| placed.instruction.names(device));
        let holds = main.contains(&device);
        note(found, Thing::MainHolds, holds && machine.steps == 0);
        note(found, Thing::MainHoldsNoMore, named && !holds);
        note(found, Thing::OnlyInSlots, !holds);
        let own = held(device).unwrap_or_default();
        let other = own.iter().any(|held| *held < devices && *held != device);
        note(found, Thing::DeviceHolds, other);
    }
    for (number, object) in machine.objects.iter().enumerate() {
        let Some(held) = held(number as u16) else {
            note(found, Thing::PureMade, true);
            continue;
        };
        let has = |value: &u16| *value < devices && held.contains(value);
        note(found, Thing::KeptHolds, object.kept.iter().any(has));
        let fields = object.fields.iter().any(|field| has(&field.1));
        note(found, Thing::FieldHolds, fields);
    }
}

/// How many sheets have each of the things.
#[derive(Clone, Debug, PartialEq, Eq)]
pub struct Devices {
    pub sheets: u64,
    /// Those with devices.
    pub equipped: u64,
    pub counts: [u64; THINGS.len()],
}

impl Default for Devices {
    fn default() -> Devices {
        Devices {
            sheets: 0,
            equipped: 0,
            counts: [0; THINGS.len()],
        }
    }
}

impl Devices {
    /// Looks at an accepted sheet.
    pub fn add(&mut self, sheet: &Sheet) {
        self.sheets += 1;
        self.equipped += u64::from(!sheet.devices.is_empty());
        tally::add(&mut self.counts, things(sheet));
    }

    /// The things that no sheet has.
    pub fn missing(&self) -> Vec<String> {
        let missing = tally::missing(&THINGS, &self.counts);
        missing.map(String::from).collect()
    }

    /// A line for each thing, for the sheets of this name.
    pub fn lines(&self, name: &str) -> String {
        let first = format!("{name} with devices: {}\n", self.equipped);
        first + &tally::lines(&format!("{name} with"), &THINGS, &self.counts)
    }
}
