//! `desk timeline`: who gets what at which step, and by what.

use super::run::outcome;
use super::{budget, Command, MOST_STEPS, STEPS_CHOICE};
use crate::args::{Given, Usage};
use crate::desk::Desk;
use crate::follow::{Event, Step};
use crate::line::lines;
use crate::reader::read;
use crate::reading::Reading;
use crate::timeline::{timeline, Change, Gain, Sets, Timeline, Way};
use crate::words::numbers;
use lexondar::MAIN;
use std::fmt::Write;

pub const COMMAND: Command = Command {
    word: "timeline",
    takes: "FILE",
    about: "show who gets what at which step, and by what",
    more: "A holder gets something in three ways: it created it or was created with it, it was called\n\
           with it, or it was returned it. It is done with what it can no longer use. Steps at which\n\
           nobody's holding changes are left out.",
    choices: &[STEPS_CHOICE],
    examples: &[("desk timeline clerk.sheet", "how the clerk gets the scale")],
    run,
};

fn run(given: &Given, desk: &mut Desk) -> Result<(), Usage> {
    let [file] = given.exactly("a file")?;
    let budget = budget(given, MOST_STEPS)?;
    if let Some(text) = desk.text(file) {
        match timeline(&mut desk.library, &text.bytes, budget) {
            Ok(timeline) => desk.put(&shown(&timeline, &read(&lines(&text.bytes)))),
            Err(error) => desk.no_answer(&text, error, None),
        }
    }
    Ok(())
}

/// The timeline for people.
pub fn shown(timeline: &Timeline, reading: &Reading) -> String {
    let mut shown = format!("{}\n", outcome(&timeline.run));
    if !reading.devices.is_empty() {
        shown += &format!("\nstart: devices {}\n", devices(reading));
        shown += &held(&timeline.start);
    }
    for change in &timeline.changes {
        shown += &change_shown(change);
    }
    shown += "\nat the end:\n";
    shown += &held(&timeline.end);
    shown
}

/// A line for each holder.
fn held(sets: &Sets) -> String {
    let lines = sets.iter().map(|(holder, held)| {
        let held = numbers(held, "nothing");
        format!("    {} holds {held}\n", name(*holder))
    });
    lines.collect()
}

/// The devices with their forms.
fn devices(reading: &Reading) -> String {
    let devices = reading.devices.iter().enumerate();
    let words: Vec<String> = devices
        .map(|(number, device)| format!("{number} (form {})", device.form))
        .collect();
    words.join(", ")
}

fn change_shown(change: &Change) -> String {
    let what = change.step.as_ref().map(told);
    let mut shown = format!("\nstep {}{}\n", change.number, what.unwrap_or_default());
    for Gain {
        holder,
        resource,
        way,
    } in &change.gains
    {
        let by = match way {
            Some(Way::Created) => ": created it".into(),
            Some(Way::WasCreated) => ": was created".into(),
            Some(Way::CreatedWith(by)) => format!(": was created with it by {}", name(*by)),
            Some(Way::Called(by)) => format!(": was called with it by {}", name(*by)),
            Some(Way::Returned(by)) => format!(": was returned it by {}", name(*by)),
            None => String::new(),
        };
        let _ = writeln!(shown, "  + {} gets {resource}{by}", name(*holder));
    }
    for (holder, resource) in &change.losses {
        let _ = writeln!(shown, "  - {} is done with {resource}", name(*holder));
    }
    shown
}

/// What a step does, with its line.
fn told(step: &Step) -> String {
    let line = step
        .line
        .map_or(String::new(), |line| format!(", line {line}"));
    let who = name(step.holder);
    let does = match &step.event {
        Event::Made { object, form, kept } => {
            let keeps = match kept.is_empty() {
                true => String::new(),
                false => format!(", which keeps {}", numbers(kept, "")),
            };
            format!("{who} creates object {object} of form {form}{keeps}")
        }
        Event::Called {
            receiver,
            name,
            argument,
        } => format!("{who} calls method {name} of object {receiver} with {argument}"),
        Event::Returned { to, value } => format!("{who} returns {value} to {}", name(*to)),
        Event::Read { name, value } => format!("{who} reads field {name}, {value}"),
        Event::Set { name, value } => format!("{who} sets field {name} to {value}"),
        Event::Copied { value } => format!("{who} copies {value}"),
    };
    format!("{line}: {does}")
}

/// A holder's name.
fn name(holder: u16) -> String {
    match usize::from(holder) == MAIN {
        true => "main".into(),
        false => format!("object {holder}"),
    }
}
