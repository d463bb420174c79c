//! Who gets what at which step of a run, and by what.

use crate::follow::{Event, Follower, Step};
use crate::library::Library;
use crate::line::lines;
use crate::reader::read;
use lexondar::{Error, Run};

/// Each holder with what it holds, main first.
pub type Sets = Vec<(u16, Vec<u16>)>;

/// How a holder got something: by creation, by a call, or by a return.
#[derive(Clone, Copy, Debug, PartialEq, Eq)]
pub enum Way {
    /// It created the resource.
    Created,
    /// It was created, and holds itself.
    WasCreated,
    /// It was created with the resource, by this holder.
    CreatedWith(u16),
    /// It was called with the resource, by this holder.
    Called(u16),
    /// It was returned the resource, by this holder.
    Returned(u16),
}

/// Something that a holder has after a step and had not before.
#[derive(Clone, Debug)]
pub struct Gain {
    pub holder: u16,
    pub resource: u16,
    /// None where the lines do not tell.
    pub way: Option<Way>,
}

/// A step at which holdings change.
#[derive(Clone, Debug)]
pub struct Change {
    /// Counted from 1.
    pub number: u32,
    /// None where the lines do not tell.
    pub step: Option<Step>,
    pub gains: Vec<Gain>,
    /// Holders with what they are done with.
    pub losses: Vec<(u16, u16)>,
}

/// A run, step by step.
pub struct Timeline {
    pub run: Run,
    pub start: Sets,
    pub changes: Vec<Change>,
    pub end: Sets,
}

impl Timeline {
    /// What each holder held at some step, main first.
    pub fn ever(&self) -> Sets {
        let mut ever = self.start.clone();
        let gains = self.changes.iter().flat_map(|change| &change.gains);
        for Gain {
            holder, resource, ..
        } in gains
        {
            match ever.iter_mut().find(|(other, _)| other == holder) {
                Some((_, held)) => held.push(*resource),
                None => ever.push((*holder, vec![*resource])),
            }
        }
        for (_, held) in &mut ever {
            held.sort_unstable();
            held.dedup();
        }
        ever
    }
}

/// Asks the library for every holder's set after each number of steps, and
/// tells the sets of neighbours apart. The lines say by what they changed.
pub fn timeline(library: &mut Library, text: &[u8], budget: u32) -> Result<Timeline, Error> {
    let run = library.run(text, budget)?;
    let reading = read(&lines(text));
    let mut follower = Follower::start(&reading);
    let start = sets(library, text, 0)?;
    let mut before = start.clone();
    let mut changes = Vec::new();
    for number in 1..=run.steps {
        let step = follower.as_mut().and_then(Follower::step);
        if step.is_none() {
            follower = None;
        }
        let after = sets(library, text, number)?;
        if after != before {
            changes.push(change(number, step, &before, &after));
        }
        before = after;
    }
    Ok(Timeline {
        run,
        start,
        changes,
        end: before,
    })
}

/// Every holder's set after this number of steps.
fn sets(library: &mut Library, text: &[u8], steps: u32) -> Result<Sets, Error> {
    let (_, entries) = library.report(text, steps)?;
    Ok(entries
        .map(|(holder, held)| (holder, held.to_vec()))
        .collect())
}

fn change(number: u32, step: Option<Step>, before: &Sets, after: &Sets) -> Change {
    let mut gains = Vec::new();
    for (holder, resource) in beyond(after, before) {
        let way = step.as_ref().and_then(|step| way(step, holder, resource));
        gains.push(Gain {
            holder,
            resource,
            way,
        });
    }
    Change {
        number,
        step,
        gains,
        losses: beyond(before, after),
    }
}

/// What holders hold in one state and not in the other.
fn beyond(held: &Sets, other: &Sets) -> Vec<(u16, u16)> {
    let mut found = Vec::new();
    for (holder, resources) in held {
        let others = other.iter().find(|(other, _)| other == holder);
        let others = others.map_or(&[][..], |(_, held)| held);
        let more = resources
            .iter()
            .filter(|resource| !others.contains(resource));
        found.extend(more.map(|resource| (*holder, *resource)));
    }
    found
}

/// Which of the three ways it is.
fn way(step: &Step, holder: u16, resource: u16) -> Option<Way> {
    match &step.event {
        Event::Made { object, kept, .. } => match (holder == *object, resource == *object) {
            (true, true) => Some(Way::WasCreated),
            (true, false) => {
                let with = kept.contains(&resource);
                with.then_some(Way::CreatedWith(step.holder))
            }
            (false, true) => (holder == step.holder).then_some(Way::Created),
            (false, false) => None,
        },
        Event::Called {
            receiver, argument, ..
        } => {
            let called = holder == *receiver && resource == *argument;
            called.then_some(Way::Called(step.holder))
        }
        Event::Returned { to, value } => {
            let returned = holder == *to && resource == *value && step.holder != holder;
            returned.then_some(Way::Returned(step.holder))
        }
        Event::Read { .. } | Event::Set { .. } | Event::Copied { .. } => None,
    }
}
