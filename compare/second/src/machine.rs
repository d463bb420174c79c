//! The machine: objects, frames, single steps and the bounded run.

use crate::sheet::{Instruction, Part, Placed, Sheet};

/// Places in the store.
pub const STORE: usize = 256;
/// Frames on the stack, main's included.
pub const STACK: usize = 64;
/// The slot of a body's first kept value; the own object and the argument
/// come before it.
pub const FIRST_KEPT: usize = 2;
/// The value of an unfinished run.
pub const NO_VALUE: u16 = 65_535;

/// How a run ended, with its number in the rules.
#[derive(Clone, Copy, Debug, PartialEq, Eq, Hash)]
pub enum Outcome {
    Done = 0,
    Spent = 1,
    StoreFull = 2,
    StackFull = 3,
}

/// The answer of a run.
#[derive(Clone, Copy, Debug, PartialEq, Eq, Hash)]
pub struct RunAnswer {
    pub outcome: Outcome,
    pub steps: u32,
    /// Main's last slot if the run is done, else 65,535.
    pub value: u16,
    /// How many objects there are at the end.
    pub objects: u16,
}

/// An object: its form, its kept values and its fields by name.
#[derive(Clone, Debug)]
pub struct Object {
    pub form: u16,
    pub kept: Vec<u16>,
    pub fields: Vec<(u16, u16)>,
}

/// A frame; its slots are those of the machine from `base` up to the base
/// of the frame above.
#[derive(Clone, Copy, Debug)]
pub struct Frame<'a> {
    code: &'a [Placed],
    /// How many of its instructions have been taken.
    taken: usize,
    base: usize,
    /// How many of its slots were filled at its start.
    given: usize,
    /// The object that was called; main's frame has none.
    pub receiver: Option<u16>,
}

impl<'a> Frame<'a> {
    /// The instructions that are taken. A call that waits for its return is
    /// one of them.
    pub fn done(&self) -> &'a [Placed] {
        &self.code[..self.taken]
    }

    /// The instructions that are not yet taken.
    pub fn left(&self) -> &'a [Placed] {
        &self.code[self.taken..]
    }

    /// The slot that the last instruction fills.
    pub fn final_slot(&self) -> usize {
        self.given + self.code.len() - 1
    }
}

/// A state of a sheet's run. Only sheets that typing accepts may run.
pub struct Machine<'a> {
    pub sheet: &'a Sheet,
    pub objects: Vec<Object>,
    pub frames: Vec<Frame<'a>>,
    /// The filled slots of all frames, the lowest frame's first.
    slots: Vec<u16>,
    pub steps: u32,
}

impl<'a> Machine<'a> {
    /// The start: the devices, and main's frame with one of them in each of
    /// its first slots.
    pub fn start(sheet: &'a Sheet) -> Machine<'a> {
        let main = Frame {
            code: &sheet.main,
            taken: 0,
            base: 0,
            given: sheet.devices.len(),
            receiver: None,
        };
        let mut machine = Machine {
            sheet,
            objects: Vec::new(),
            frames: vec![main],
            slots: Vec::new(),
            steps: 0,
        };
        for device in &sheet.devices {
            // A device keeps nothing.
            let made = machine.create(device.form, Vec::new());
            machine.slots.push(made);
        }
        machine
    }

    /// Takes steps until an outcome is reached.
    pub fn run(&mut self, budget: u32) -> RunAnswer {
        let outcome = loop {
            if let Some(outcome) = self.outcome(budget) {
                break outcome;
            }
            self.step();
        };
        let value = match outcome {
            Outcome::Done => self.last_slot(),
            _ => NO_VALUE,
        };
        RunAnswer {
            outcome,
            steps: self.steps,
            value,
            objects: self.objects.len() as u16,
        }
    }

    /// The questions before each step, in the order of the rules.
    fn outcome(&self, budget: u32) -> Option<Outcome> {
        let next = self.next().map(|placed| &placed.instruction);
        if next.is_none() && self.frames.len() == 1 {
            return Some(Outcome::Done);
        }
        if self.steps == budget {
            return Some(Outcome::Spent);
        }
        match next {
            Some(Instruction::New { .. }) if self.objects.len() == STORE => {
                Some(Outcome::StoreFull)
            }
            Some(Instruction::Call { .. }) if self.frames.len() == STACK => {
                Some(Outcome::StackFull)
            }
            _ => None,
        }
    }

    /// The top frame's next instruction, if it has one left.
    pub fn next(&self) -> Option<&'a Placed> {
        self.top().left().first()
    }

    fn top(&self) -> &Frame<'a> {
        self.frames.last().expect("main's frame stays")
    }

    /// The filled slots of a frame.
    pub fn frame_slots(&self, frame: usize) -> &[u16] {
        let above = self.frames.get(frame + 1);
        let end = above.map_or(self.slots.len(), |above| above.base);
        &self.slots[self.frames[frame].base..end]
    }

    fn slot(&self, slot: u16) -> u16 {
        self.slots[self.top().base + usize::from(slot)]
    }

    fn last_slot(&self) -> u16 {
        *self.slots.last().expect("code has an instruction")
    }

    /// One step of a state that is neither finished nor stopped.
    fn step(&mut self) {
        match self.next() {
            None => self.give_back(),
            Some(placed) => {
                if let Some(top) = self.frames.last_mut() {
                    top.taken += 1;
                }
                self.take(&placed.instruction);
            }
        }
        self.steps += 1;
    }

    /// A return fills the next slot of the frame beneath.
    fn give_back(&mut self) {
        let value = self.last_slot();
        let base = self.top().base;
        self.frames.pop();
        self.slots.truncate(base);
        self.slots.push(value);
    }

    fn take(&mut self, instruction: &Instruction) {
        match instruction {
            Instruction::New { form, slots } => {
                let kept = slots.iter().map(|slot| self.slot(*slot)).collect();
                let made = self.create(*form, kept);
                self.slots.push(made);
            }
            Instruction::Call {
                slot,
                name,
                argument,
            } => self.call(self.slot(*slot), *name, self.slot(*argument)),
            Instruction::Get { name } => {
                let value = *self.field(*name);
                self.slots.push(value);
            }
            Instruction::Put { name, slot } => {
                let value = self.slot(*slot);
                *self.field(*name) = value;
                self.slots.push(value);
            }
            Instruction::Copy { slot } => {
                let value = self.slot(*slot);
                self.slots.push(value);
            }
        }
    }

    fn create(&mut self, form: u16, kept: Vec<u16>) -> u16 {
        let made = &self.sheet.forms[usize::from(form)];
        let members = &self.sheet.rows[usize::from(made.row)].members;
        let parts = members.iter().zip(&made.parts);
        let fields = parts.filter_map(|(member, part)| match part {
            Part::Init { kept: place, .. } => Some((member.name, kept[usize::from(*place)])),
            Part::Body(_) => None,
        });
        let fields = fields.collect();
        self.objects.push(Object { form, kept, fields });
        (self.objects.len() - 1) as u16
    }

    fn call(&mut self, receiver: u16, name: u16, argument: u16) {
        let sheet = self.sheet;
        let object = &self.objects[usize::from(receiver)];
        let form = &sheet.forms[usize::from(object.form)];
        let members = &sheet.rows[usize::from(form.row)].members;
        let place = members.iter().position(|member| member.name == name);
        let Some(Part::Body(code)) = place.map(|place| &form.parts[place]) else {
            unreachable!("typing keeps such states away");
        };
        let base = self.slots.len();
        self.slots.extend([receiver, argument]);
        self.slots.extend(&object.kept);
        self.frames.push(Frame {
            code,
            taken: 0,
            base,
            given: FIRST_KEPT + object.kept.len(),
            receiver: Some(receiver),
        });
    }

    /// The own object's field with this name.
    fn field(&mut self, name: u16) -> &mut u16 {
        let own = self.top().receiver.expect("typing keeps main out");
        let fields = &mut self.objects[usize::from(own)].fields;
        let found = fields.iter_mut().find(|field| field.0 == name);
        &mut found.expect("typing keeps such states away").1
    }
}
