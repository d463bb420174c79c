//! Runs by rules for devices that are wrong in one point: each gives another
//! answer for some sheet.

use generator::{device, sheet};
use second::machine::{STACK, STORE};
use second::sheet::{Code, Instruction, Part};
use second::{Outcome, Sheet, NO_VALUE};
use std::collections::BTreeMap;

/// Device sheets, and sheets of the rotation.
pub fn texts(seed: u64, count: u64) -> impl Iterator<Item = Vec<u8>> {
    let both = move |index| [device(seed, index), sheet(seed, index)];
    (0..count).flat_map(both)
}

/// A rule for runs.
#[derive(Clone, Copy, Debug, PartialEq, Eq)]
enum Rule {
    Right,
    NumberedFromOne,
    FilledFromZero,
    CountWithoutDevices,
    StoreBesides,
    FirstOnly,
    Ignored,
}

const WRONG: [Rule; 6] = [
    Rule::NumberedFromOne,
    Rule::FilledFromZero,
    Rule::CountWithoutDevices,
    Rule::StoreBesides,
    Rule::FirstOnly,
    Rule::Ignored,
];

struct Object {
    form: u16,
    kept: Vec<u16>,
    fields: BTreeMap<u16, u16>,
}

struct Frame<'a> {
    code: &'a Code,
    taken: usize,
    slots: Vec<u16>,
    own: Option<u16>,
}

/// A machine that follows one of the rules.
struct Plain<'a> {
    sheet: &'a Sheet,
    rule: Rule,
    objects: Vec<Object>,
    frames: Vec<Frame<'a>>,
}

/// Outcome, steps, value and number of objects.
type Answer = (Outcome, u32, u16, u16);

impl<'a> Plain<'a> {
    /// The answer for a budget; none where a step cannot be taken.
    fn run(sheet: &'a Sheet, rule: Rule, budget: u32) -> Option<Answer> {
        let mut plain = Plain {
            sheet,
            rule,
            objects: Vec::new(),
            frames: Vec::new(),
        };
        let held = match rule {
            Rule::FirstOnly => 1,
            Rule::Ignored => 0,
            _ => sheet.devices.len(),
        };
        let mut slots = Vec::new();
        for device in sheet.devices.iter().take(held) {
            slots.push(plain.create(device.form, Vec::new())?);
        }
        plain.push(&sheet.main, slots, None);
        let mut steps = 0;
        let outcome = loop {
            match plain.outcome(steps, budget) {
                Some(outcome) => break outcome,
                None => plain.step()?,
            }
            steps += 1;
        };
        let value = match outcome {
            Outcome::Done => *plain.frames[0].slots.last()?,
            _ => NO_VALUE,
        };
        Some((outcome, steps, value, plain.count()))
    }

    fn count(&self) -> u16 {
        let left_out = match self.rule {
            Rule::CountWithoutDevices => self.sheet.devices.len(),
            _ => 0,
        };
        (self.objects.len() - left_out) as u16
    }

    fn first(&self) -> u16 {
        u16::from(self.rule == Rule::NumberedFromOne)
    }

    fn push(&mut self, code: &'a Code, slots: Vec<u16>, own: Option<u16>) {
        self.frames.push(Frame {
            code,
            taken: 0,
            slots,
            own,
        });
    }

    fn next(&self) -> Option<&'a Instruction> {
        let top = self.frames.last()?;
        let placed = top.code.get(top.taken)?;
        Some(&placed.instruction)
    }

    fn outcome(&self, steps: u32, budget: u32) -> Option<Outcome> {
        let besides = match self.rule {
            Rule::StoreBesides => self.sheet.devices.len(),
            _ => 0,
        };
        let next = self.next();
        let full = self.objects.len() == STORE + besides;
        match next {
            None if self.frames.len() == 1 => Some(Outcome::Done),
            _ if steps == budget => Some(Outcome::Spent),
            Some(Instruction::New { .. }) if full => Some(Outcome::StoreFull),
            Some(Instruction::Call { .. }) if self.frames.len() == STACK => {
                Some(Outcome::StackFull)
            }
            _ => None,
        }
    }

    fn step(&mut self) -> Option<()> {
        let Some(next) = self.next() else {
            let value = *self.frames.pop()?.slots.last()?;
            return self.fill(value);
        };
        let top = self.frames.last_mut()?;
        top.taken += 1;
        let (slots, own) = (top.slots.clone(), top.own);
        let at = |slot: &u16| slots.get(usize::from(*slot)).copied();
        match next {
            Instruction::New { form, slots } => {
                let kept = slots.iter().map(at).collect::<Option<_>>()?;
                let made = self.create(*form, kept)?;
                self.fill(made)
            }
            Instruction::Call {
                slot,
                name,
                argument,
            } => self.call(at(slot)?, *name, at(argument)?),
            Instruction::Get { name } => {
                let value = *self.object(own?)?.fields.get(name)?;
                self.fill(value)
            }
            Instruction::Put { name, slot } => {
                let value = at(slot)?;
                *self.object(own?)?.fields.get_mut(name)? = value;
                self.fill(value)
            }
            Instruction::Copy { slot } => self.fill(at(slot)?),
        }
    }

    /// Fills the next slot of the top frame.
    fn fill(&mut self, value: u16) -> Option<()> {
        let in_main = self.frames.len() == 1;
        let top = self.frames.last_mut()?;
        let place = top.taken - 1;
        if in_main && self.rule == Rule::FilledFromZero && place < top.slots.len() {
            top.slots[place] = value;
        } else {
            top.slots.push(value);
        }
        Some(())
    }

    fn object(&mut self, number: u16) -> Option<&mut Object> {
        let place = number.checked_sub(self.first())?;
        self.objects.get_mut(usize::from(place))
    }

    fn create(&mut self, form: u16, kept: Vec<u16>) -> Option<u16> {
        let own = self.sheet.forms.get(usize::from(form))?;
        let members = &self.sheet.rows[usize::from(own.row)].members;
        let mut fields = BTreeMap::new();
        for (member, part) in members.iter().zip(&own.parts) {
            if let Part::Init { kept: place, .. } = part {
                fields.insert(member.name, *kept.get(usize::from(*place))?);
            }
        }
        self.objects.push(Object { form, kept, fields });
        Some(self.objects.len() as u16 - 1 + self.first())
    }

    fn call(&mut self, receiver: u16, name: u16, argument: u16) -> Option<()> {
        let sheet = self.sheet;
        let object = self.object(receiver)?;
        let slots = [&[receiver, argument], &object.kept[..]].concat();
        let form = &sheet.forms[usize::from(object.form)];
        let members = &sheet.rows[usize::from(form.row)].members;
        let place = members.iter().position(|member| member.name == name)?;
        let Part::Body(code) = &form.parts[place] else {
            return None;
        };
        self.push(code, slots, Some(receiver));
        Some(())
    }
}

#[test]
fn wrong_runs_are_told_apart() {
    let (mut sheets, mut counts) = (0, [0; WRONG.len()]);
    for text in texts(51, 300) {
        let Ok(sheet) = second::read(&text) else {
            continue;
        };
        let Ok(run) = second::run(&text, 3_000) else {
            continue;
        };
        let answer = Some((run.outcome, run.steps, run.value, run.objects));
        assert_eq!(Plain::run(&sheet, Rule::Right, 3_000), answer);
        sheets += 1;
        for (count, rule) in counts.iter_mut().zip(WRONG) {
            let other = Plain::run(&sheet, rule, 3_000);
            // A sheet without devices means what it did.
            let same = sheet.devices.is_empty() && rule != Rule::NumberedFromOne;
            assert!(!same || other == answer);
            *count += u32::from(other != answer);
        }
    }
    for (rule, count) in WRONG.iter().zip(counts) {
        assert!(count >= 10, "{rule:?}: {count} of {sheets}");
    }
}
