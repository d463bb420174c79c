//! A run followed along the lines, for words alone: which line each step takes
//! and of what form each object is. What the run comes to, and who holds what,
//! the library says; where a run that is followed does not come to the same,
//! nothing is told of it.

use crate::reading::{Op, Owner, Part, Reading};
use lexondar::{Run, MAIN};

/// An object, by the form that it was made of.
struct Object {
    form: usize,
    kept: Vec<u16>,
    /// By name.
    fields: Vec<(u16, u16)>,
}

/// A frame of main or of a body.
struct Frame {
    owner: Owner,
    receiver: Option<u16>,
    slots: Vec<u16>,
    taken: usize,
}

/// What a step does. Who does it is the holder to whom the top frame belongs.
#[derive(Clone, Debug, PartialEq, Eq)]
pub enum Event {
    Made {
        object: u16,
        form: usize,
        kept: Vec<u16>,
    },
    Called {
        receiver: u16,
        name: u16,
        argument: u16,
    },
    /// To the holder of the frame beneath.
    Returned {
        to: u16,
        value: u16,
    },
    Read {
        name: u16,
        value: u16,
    },
    Set {
        name: u16,
        value: u16,
    },
    Copied {
        value: u16,
    },
}

/// A step that was taken.
#[derive(Clone, Debug)]
pub struct Step {
    /// The line of its instruction; a return has none.
    pub line: Option<usize>,
    /// The holder to whom the top frame belongs.
    pub holder: u16,
    pub event: Event,
}

/// A state on the way.
pub struct Follower<'a> {
    reading: &'a Reading,
    objects: Vec<Object>,
    frames: Vec<Frame>,
}

impl<'a> Follower<'a> {
    /// The start: devices in main's first slots.
    pub fn start(reading: &'a Reading) -> Option<Follower<'a>> {
        let main = Frame {
            owner: Owner::Main,
            receiver: None,
            slots: (0..reading.devices.len() as u16).collect(),
            taken: 0,
        };
        let mut follower = Follower {
            reading,
            objects: Vec::new(),
            frames: vec![main],
        };
        for device in &reading.devices {
            follower.make(device.form, Vec::new())?;
        }
        Some(follower)
    }

    /// The form of each object.
    pub fn forms(&self) -> Vec<usize> {
        self.objects.iter().map(|object| object.form).collect()
    }

    /// Takes a step; none if there is none that the lines tell.
    pub fn step(&mut self) -> Option<Step> {
        let holder = self.holder(self.frames.len())?;
        let reading = self.reading;
        let top = self.frames.last_mut()?;
        let instr = reading.code(top.owner)?.instrs.get(top.taken);
        top.taken += 1;
        let event = match instr {
            Some(instr) => self.take(&instr.op)?,
            None => self.give_back()?,
        };
        Some(Step {
            line: instr.map(|instr| instr.line),
            holder,
            event,
        })
    }

    /// To whom the uppermost of this number of frames belongs.
    fn holder(&self, frames: usize) -> Option<u16> {
        for frame in self.frames.get(..frames)?.iter().rev() {
            if let Some(receiver) = frame.receiver {
                let form = self.objects.get(usize::from(receiver))?.form;
                if self.reading.is_resource(form)? {
                    return Some(receiver);
                }
            }
        }
        Some(MAIN as u16)
    }

    fn slot(&self, slot: usize) -> Option<u16> {
        self.frames.last()?.slots.get(slot).copied()
    }

    fn fill(&mut self, value: u16) -> Option<()> {
        self.frames.last_mut()?.slots.push(value);
        Some(())
    }

    fn take(&mut self, op: &Op) -> Option<Event> {
        Some(match op {
            Op::New { form, slots } => {
                let kept = slots.iter().map(|slot| self.slot(*slot));
                let kept = kept.collect::<Option<Vec<u16>>>()?;
                let object = self.make(*form, kept.clone())?;
                self.fill(object)?;
                Event::Made {
                    object,
                    form: *form,
                    kept,
                }
            }
            Op::Call {
                slot,
                name,
                argument,
            } => {
                let (receiver, argument) = (self.slot(*slot)?, self.slot(*argument)?);
                self.call(receiver, *name, argument)?
            }
            Op::Get { name } => {
                let value = *self.field(*name)?;
                self.fill(value)?;
                Event::Read { name: *name, value }
            }
            Op::Put { name, slot } => {
                let value = self.slot(*slot)?;
                *self.field(*name)? = value;
                self.fill(value)?;
                Event::Set { name: *name, value }
            }
            Op::Copy { slot } => {
                let value = self.slot(*slot)?;
                self.fill(value)?;
                Event::Copied { value }
            }
        })
    }

    fn make(&mut self, form: usize, kept: Vec<u16>) -> Option<u16> {
        let parts = &self.reading.forms.get(form)?.parts;
        let mut fields = Vec::new();
        for (place, part) in parts.iter().enumerate() {
            if let Part::Init { kept: from } = part {
                let name = self.reading.member(form, place)?.name;
                fields.push((name, *kept.get(*from)?));
            }
        }
        self.objects.push(Object { form, kept, fields });
        u16::try_from(self.objects.len() - 1).ok()
    }

    fn call(&mut self, receiver: u16, name: u16, argument: u16) -> Option<Event> {
        let object = self.objects.get(usize::from(receiver))?;
        let form = object.form;
        let row = self.reading.rows.get(self.reading.forms.get(form)?.row)?;
        let part = row.members.iter().position(|member| member.name == name)?;
        let slots = [&[receiver, argument][..], &object.kept].concat();
        self.frames.push(Frame {
            owner: Owner::Body { form, part },
            receiver: Some(receiver),
            slots,
            taken: 0,
        });
        Some(Event::Called {
            receiver,
            name,
            argument,
        })
    }

    fn give_back(&mut self) -> Option<Event> {
        let value = *self.frames.last()?.slots.last()?;
        let to = self.holder(
            self.frames
                .len()
                .checked_sub(1)
                .filter(|below| *below > 0)?,
        )?;
        self.frames.pop();
        self.fill(value)?;
        Some(Event::Returned { to, value })
    }

    fn field(&mut self, name: u16) -> Option<&mut u16> {
        let own = self.frames.last()?.receiver?;
        let fields = &mut self.objects.get_mut(usize::from(own))?.fields;
        let found = fields.iter_mut().find(|field| field.0 == name);
        found.map(|field| &mut field.1)
    }
}

/// The most steps that a run is followed for.
const MOST: u32 = 10_000_000;

/// The form of each object after a run, if following it comes to as many
/// objects as the library says.
pub fn forms(reading: &Reading, run: &Run) -> Option<Vec<usize>> {
    let mut follower = Follower::start(reading)?;
    let wanted = usize::from(run.objects);
    let mut steps = 0;
    while follower.objects.len() < wanted && steps < run.steps.min(MOST) {
        follower.step()?;
        steps += 1;
    }
    let forms = follower.forms();
    (forms.len() == wanted).then_some(forms)
}
