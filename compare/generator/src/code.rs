//! Well-typed instructions for a body or for main.

use crate::draft::{line, Line};
use crate::plan::Plan;
use crate::rng::Rng;
use second::sheet::Kind;

/// A line and the row of the slot that it fills.
type Filled = (Line, u16);

/// Writes one body, or main if there is no own form.
pub struct Writer<'a> {
    pub plan: &'a Plan,
    pub rng: &'a mut Rng,
    pub own: Option<usize>,
    /// Names of calls are below this, if there is such a limit.
    pub below: Option<u16>,
    /// The rows of the filled slots.
    pub slots: Vec<u16>,
    /// The slots that no line names.
    pub silent: Vec<usize>,
}

impl Writer<'_> {
    /// `count` instructions; the last one's slot fits `asked`, if given,
    /// and `last` is used where nothing else fits.
    pub fn write(&mut self, count: usize, asked: Option<u16>, last: Option<Filled>) -> Vec<Line> {
        let mut lines = Vec::new();
        for place in 0..count {
            let (line, row) = match asked {
                Some(asked) if place + 1 == count => self.fitting(asked, last.clone()),
                _ => self.any(),
            };
            self.fill(row);
            lines.push(line);
        }
        lines
    }

    /// Fills the next slot; in some styles it may be one that no line names.
    pub fn fill(&mut self, row: u16) {
        let share = self.plan.style.silent;
        if share > 0 && self.rng.chance(share) {
            self.silent.push(self.slots.len());
        }
        self.slots.push(row);
    }

    /// Main makes objects in the order of the forms, then does anything.
    pub fn write_main(&mut self, count: usize) -> Vec<Line> {
        let mut lines = Vec::new();
        let most = self.rng.between(1, count);
        let forms = self.plan.forms.len();
        for form in 0..forms {
            // A main that is too short for all of them passes some over.
            let wanted = form == 0 || self.rng.below(forms) < count;
            if lines.len() < most && wanted {
                if let Some((line, row)) = self.create(form) {
                    self.fill(row);
                    lines.push(line);
                }
            }
        }
        lines.extend(self.write(count - lines.len(), None, None));
        lines
    }

    fn any(&mut self) -> Filled {
        for _ in 0..10 {
            if let Some(filled) = self.try_one() {
                return filled;
            }
        }
        match self.copy() {
            Some(filled) => filled,
            // Main's first line: form 0 keeps nothing.
            None => (line("new", &[0]), self.plan.forms[0].row),
        }
    }

    /// An instruction whose slot fits the row.
    fn fitting(&mut self, asked: u16, last: Option<Filled>) -> Filled {
        for _ in 0..12 {
            if let Some(filled) = self.try_one() {
                if self.plan.fit.fits(filled.1, asked) {
                    return filled;
                }
            }
        }
        if let Some(slot) = self.slot_for(asked) {
            return (line("copy", &[slot]), self.slots[slot as usize]);
        }
        for form in 0..self.plan.forms.len() {
            if self.plan.fit.fits(self.plan.forms[form].row, asked) {
                if let Some(filled) = self.create(form) {
                    return filled;
                }
            }
        }
        last.unwrap_or_else(|| self.any())
    }

    /// Tries an instruction by the weights of the style.
    fn try_one(&mut self) -> Option<Filled> {
        let weights = match self.own {
            Some(_) => self.plan.style.weights,
            None => [2, 7, 0, 0, 1],
        };
        let mut draw = self.rng.below(weights.iter().sum());
        let mut choice = 0;
        while draw >= weights[choice] {
            draw -= weights[choice];
            choice += 1;
        }
        match choice {
            0 => {
                let form = self.rng.below(self.plan.forms.len());
                self.create(form)
            }
            1 => self.call(),
            2 => self.get(),
            3 => self.put(),
            _ => self.copy(),
        }
    }

    /// The first slot that may be copied or given away.
    fn first_given(&self) -> u32 {
        u32::from(self.own.is_some() && !self.plan.style.own_given)
    }

    /// The slots from the first on that a line may name.
    fn named_from(&self, first: u32) -> impl Iterator<Item = u32> + '_ {
        let all = first..self.slots.len() as u32;
        all.filter(|slot| !self.silent.contains(&(*slot as usize)))
    }

    /// A slot whose row fits, by preference one with another row.
    fn slot_for(&mut self, asked: u16) -> Option<u32> {
        let fits = |row: u16| self.plan.fit.fits(row, asked);
        let given = self.named_from(self.first_given());
        let all: Vec<u32> = given
            .filter(|slot| fits(self.slots[*slot as usize]))
            .collect();
        let other: Vec<u32> = all
            .iter()
            .copied()
            .filter(|slot| self.slots[*slot as usize] != asked)
            .collect();
        if self.rng.chance(50) && !other.is_empty() {
            return self.rng.try_pick(&other);
        }
        self.rng.try_pick(&all)
    }

    fn create(&mut self, form: usize) -> Option<Filled> {
        let plan = self.plan;
        let mut numbers = vec![form as u32];
        for keep in &plan.forms[form].keeps {
            numbers.push(self.slot_for(*keep)?);
        }
        Some((line("new", &numbers), plan.forms[form].row))
    }

    /// A slot to call, in half of the cases one whose row has fields.
    fn receiver(&mut self) -> Option<usize> {
        let calm = self.own.is_some() && !self.plan.style.own_calls;
        let called = self.named_from(u32::from(calm));
        let all: Vec<usize> = called.map(|slot| slot as usize).collect();
        let row = |slot: usize| &self.plan.rows[usize::from(self.slots[slot])];
        let fields: Vec<usize> = all
            .iter()
            .copied()
            .filter(|slot| row(*slot).has_field())
            .collect();
        if self.rng.chance(50) && !fields.is_empty() {
            return self.rng.try_pick(&fields);
        }
        self.rng.try_pick(&all)
    }

    fn call(&mut self) -> Option<Filled> {
        let slot = self.receiver()?;
        let members = &self.plan.rows[usize::from(self.slots[slot])].members;
        let allowed = |name: u16| self.below.is_none_or(|below| name < below);
        let methods: Vec<(u16, u16, u16)> = members
            .iter()
            .filter(|member| allowed(member.name))
            .filter_map(|member| match member.kind {
                Kind::Method { argument, result } => Some((member.name, argument, result)),
                Kind::Field { .. } => None,
            })
            .collect();
        let (name, argument, result) = self.rng.try_pick(&methods)?;
        let given = self.slot_for(argument)?;
        Some((line("call", &[slot as u32, name.into(), given]), result))
    }

    /// A field of the own object: its name and row.
    fn field(&mut self) -> Option<(u32, u16)> {
        let form = &self.plan.forms[self.own?];
        let members = &self.plan.rows[usize::from(form.row)].members;
        let fields: Vec<(u32, u16)> = members
            .iter()
            .filter_map(|member| match member.kind {
                Kind::Field { row } => Some((u32::from(member.name), row)),
                Kind::Method { .. } => None,
            })
            .collect();
        self.rng.try_pick(&fields)
    }

    fn get(&mut self) -> Option<Filled> {
        let (name, row) = self.field()?;
        Some((line("get", &[name]), row))
    }

    fn put(&mut self) -> Option<Filled> {
        let (name, row) = self.field()?;
        let slot = self.slot_for(row)?;
        Some((line("put", &[name, slot]), row))
    }

    fn copy(&mut self) -> Option<Filled> {
        let slots: Vec<u32> = self.named_from(self.first_given()).collect();
        let slot = self.rng.try_pick(&slots)?;
        Some((line("copy", &[slot]), self.slots[slot as usize]))
    }
}
