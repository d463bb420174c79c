//! Ladders: sheets whose bodies call lower names, with amounts of any size.
//! Names are the rungs. Each row has some of them, and its forms keep an
//! object of every row beneath, so that all lower rungs can be called.

use crate::devices::with_some;
use crate::draft::{line, Draft, Line};
use crate::rng::Rng;
use second::sheet::{CODE_LIMIT, FORM_LIMIT, INSTRUCTION_LIMIT, MEMBER_LIMIT, NAME_LIMIT};

/// What a ladder should be like.
#[derive(Clone, Copy, Debug)]
pub struct Shape {
    pub rungs: (usize, usize),
    /// Forms of a row, at most.
    pub forms: usize,
    /// Calls in a body.
    pub calls: (usize, usize),
    /// How many rungs down a call may go.
    pub reach: usize,
    /// Copies and creations in a body, at most.
    pub others: usize,
    /// How many of a hundred of these are creations.
    pub making: usize,
}

/// What main calls.
#[derive(Clone, Copy, Debug)]
pub enum Goal {
    /// Calls that take this many steps together, or a little less.
    Steps(u128),
    /// The highest rung, and others.
    Top,
    /// Lower rungs.
    Low,
}

/// A ladder that is being made. Slots of a body: the own object, the
/// argument, and one kept object of each row beneath.
pub(crate) struct Ladder {
    /// Names, ascending.
    names: Vec<u32>,
    /// How many rungs stand on a row.
    width: usize,
    /// Whether the row that everything fits is a resource.
    any_resource: bool,
    /// How many of the lowest rows are pure.
    pure: usize,
    /// The row of each form, counted from the lowest; none for an object
    /// that has no methods.
    forms: Vec<Option<usize>>,
    /// The bodies of each form.
    bodies: Vec<Draft>,
    /// How many steps a call of each rung takes at most, its own line
    /// included. What is too large for 128 bits is their highest number.
    pub(crate) costs: Vec<u128>,
}

/// A sheet of this shape.
pub fn ladder(rng: &mut Rng, shape: &Shape, goal: Goal) -> Draft {
    let mut ladder = Ladder::plan(rng, shape);
    ladder.write_bodies(rng, shape);
    let main = crate::summit::main(rng, &ladder, goal);
    let mut draft = ladder.write_rows();
    draft.extend(ladder.write_forms());
    draft.push(line("main", &[main.len() as u32]));
    draft.extend(main);
    with_some(rng, draft)
}

impl Ladder {
    fn plan(rng: &mut Rng, shape: &Shape) -> Ladder {
        let count = rng.between(shape.rungs.0, shape.rungs.1);
        let members = usize::from(MEMBER_LIMIT);
        let width = rng.between(count.div_ceil(members), members);
        let rows = count.div_ceil(width);
        let mut forms = vec![None];
        for row in 0..rows {
            for _ in 0..rng.between(1, shape.forms) {
                forms.push(Some(row));
            }
        }
        forms.truncate(usize::from(FORM_LIMIT));
        // In the text they stand in any order, or by their rows.
        if rng.chance(60) {
            shuffle(rng, &mut forms);
        }
        Ladder {
            names: names(rng, count),
            width,
            any_resource: rng.chance(50),
            pure: rng.pick(&[0, 0, 1, rows]),
            bodies: vec![Vec::new(); forms.len()],
            forms,
            costs: Vec::new(),
        }
    }

    pub(crate) fn rungs(&self) -> usize {
        self.names.len()
    }

    pub(crate) fn name(&self, rung: usize) -> u32 {
        self.names[rung]
    }

    /// The row on which a rung stands.
    pub(crate) fn row(&self, rung: usize) -> usize {
        rung / self.width
    }

    /// The forms of a row, or of the object that has no methods.
    pub(crate) fn forms_of(&self, row: Option<usize>) -> Vec<u32> {
        let all = self.forms.iter().enumerate();
        let own = all.filter(|(_, own)| **own == row);
        own.map(|(form, _)| form as u32).collect()
    }

    /// Writes the bodies from the lowest rung up. Every body has its share
    /// of the instructions that main leaves.
    fn write_bodies(&mut self, rng: &mut Rng, shape: &Shape) {
        let of_row = |row| self.forms_of(Some(row)).len();
        let mut bodies: usize = (0..self.rungs()).map(|rung| of_row(self.row(rung))).sum();
        let mut left = INSTRUCTION_LIMIT - usize::from(CODE_LIMIT);
        for rung in 0..self.rungs() {
            let mut largest = 0;
            for form in self.forms_of(Some(self.row(rung))) {
                let most = usize::from(CODE_LIMIT).min(left / bodies);
                let (code, cost) = self.write_body(rng, shape, rung, most);
                left -= code.len();
                bodies -= 1;
                let body = &mut self.bodies[form as usize];
                body.push(line("body", &[code.len() as u32]));
                body.extend(code);
                largest = cost.max(largest);
            }
            self.costs.push(largest);
        }
    }

    /// A body of at most `most` instructions, and what a call of it takes.
    fn write_body(
        &self,
        rng: &mut Rng,
        shape: &Shape,
        rung: usize,
        most: usize,
    ) -> (Vec<Line>, u128) {
        let calls = match rung {
            0 => 0,
            _ => rng.between(shape.calls.0, shape.calls.1).min(most),
        };
        let least = usize::from(calls == 0);
        let others = rng.between(least, shape.others.max(least));
        let mut called = vec![None; others.min(most - calls)];
        for _ in 0..calls {
            let down = rng.between(1, shape.reach.min(rung));
            called.push(Some(rung - down));
        }
        shuffle(rng, &mut called);
        // The call itself and the return.
        let mut cost = 2u128;
        let mut code = Vec::new();
        for called in called {
            let more = called.map_or(1, |called| self.costs[called]);
            cost = cost.saturating_add(more);
            code.push(self.instruction(rng, shape, (rung, code.len()), called));
        }
        (code, cost)
    }

    /// A call of a lower rung, or something else, after `filled` others.
    fn instruction(
        &self,
        rng: &mut Rng,
        shape: &Shape,
        (rung, filled): (usize, usize),
        called: Option<usize>,
    ) -> Line {
        let row = self.row(rung);
        // Slots that fit everywhere: the argument and what was filled since.
        let first = row + 2;
        let mut slots: Vec<u32> = (first..first + filled).map(|slot| slot as u32).collect();
        slots.push(1);
        slots.extend(self.any_resource.then_some(0));
        let slot = rng.pick(&slots);
        match called {
            Some(called) if self.row(called) == row => line("call", &[0, self.name(called), slot]),
            Some(called) => {
                let kept = self.row(called) as u32 + 2;
                line("call", &[kept, self.name(called), slot])
            }
            None if rng.chance(shape.making) => line("new", &self.forms_of(None)),
            None => line("copy", &[slot]),
        }
    }

    fn write_rows(&self) -> Draft {
        let rows = self.row(self.rungs() - 1) + 1;
        let mut draft = vec![
            line("types", &[rows as u32 + 1]),
            line("type", &[u32::from(self.any_resource), 0]),
        ];
        for row in 0..rows {
            let names = self.names.chunks(self.width).nth(row).unwrap_or(&[]);
            let resource = u32::from(row >= self.pure);
            draft.push(line("type", &[resource, names.len() as u32]));
            draft.extend(names.iter().map(|name| line("def", &[*name, 0, 0])));
        }
        draft
    }

    fn write_forms(&self) -> Draft {
        let mut draft = vec![line("forms", &[self.forms.len() as u32])];
        for (row, bodies) in self.forms.iter().zip(&self.bodies) {
            let Some(row) = *row else {
                draft.push(line("form", &[0, 0]));
                continue;
            };
            draft.push(line("form", &[row as u32 + 1, row as u32]));
            draft.extend((1..=row).map(|kept| line("keep", &[kept as u32])));
            draft.extend(bodies.iter().cloned());
        }
        draft
    }
}

/// As many different names, ascending.
fn names(rng: &mut Rng, count: usize) -> Vec<u32> {
    let mut names: Vec<u32> = (0..=u32::from(NAME_LIMIT)).collect();
    while names.len() > count {
        names.remove(rng.below(names.len()));
    }
    names
}

pub fn shuffle<T>(rng: &mut Rng, items: &mut [T]) {
    for last in (1..items.len()).rev() {
        items.swap(last, rng.between(0, last));
    }
}
