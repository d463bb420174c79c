//! `desk diff`: who may touch more in a new sheet, and who less.

use super::run::outcome;
use super::{budget, Command, MOST_STEPS, STEPS_CHOICE};
use crate::args::{Given, Usage};
use crate::desk::Desk;
use crate::holding::{Holding, Holdings, Who};
use crate::library::Library;
use crate::text::Text;
use crate::timeline::timeline;
use crate::words::numbers;
use lexondar::Error;
use std::ffi::OsStr;

pub const COMMAND: Command = Command {
    word: "diff",
    takes: "OLD NEW",
    about: "compare two sheets: who may touch more, who less",
    more: "Both are run. A holder may touch what it holds at any step of the run, also if it is done\n\
           with it later. Each is looked for in the other sheet by its object's number.",
    choices: &[STEPS_CHOICE],
    examples: &[(
        "desk diff clerk-1.sheet clerk-2.sheet",
        "what an update changes",
    )],
    run,
};

fn run(given: &Given, desk: &mut Desk) -> Result<(), Usage> {
    let [old, new] = given.exactly("two files")?;
    if old == "-" && new == "-" {
        return Usage::new("- stands twice");
    }
    let budget = budget(given, MOST_STEPS)?;
    let old = side(desk, old, budget);
    let new = side(desk, new, budget);
    if let (Some((old_text, old)), Some((new_text, new))) = (old, new) {
        desk.put(&format!("old: {}: {}\n", old_text.name, outcome(&old.run)));
        desk.put(&format!("new: {}: {}\n", new_text.name, outcome(&new.run)));
        desk.put(&compared(&old, &new));
    }
    Ok(())
}

/// A sheet, and what each holder held at some step of its run.
fn side(desk: &mut Desk, file: &OsStr, budget: u32) -> Option<(Text, Holdings)> {
    let text = desk.text(file)?;
    match ever(&mut desk.library, &text.bytes, budget) {
        Ok(holdings) => Some((text, holdings)),
        Err(error) => {
            desk.no_answer(&text, error, None);
            None
        }
    }
}

fn ever(library: &mut Library, text: &[u8], budget: u32) -> Result<Holdings, Error> {
    let mut holdings = Holdings::of(library, text, budget)?;
    let ever = timeline(library, text, budget)?.ever();
    let all = ever.into_iter().map(|(holder, held)| Holding {
        who: Who::of(holder),
        held,
    });
    holdings.all = all.collect();
    Ok(holdings)
}

/// A line for each holder that may touch more or less, or is in one alone.
fn compared(old: &Holdings, new: &Holdings) -> String {
    let mut lines = String::new();
    for holding in &new.all {
        let before = old.all.iter().find(|other| other.who == holding.who);
        lines += &match before {
            Some(before) => changed((old, before), (new, holding)),
            None => {
                let held = listed(new, &holding.held);
                format!(
                    "{}: only in the new one, touches {held}\n",
                    new.holder(&holding.who)
                )
            }
        };
    }
    for holding in &old.all {
        if !new.all.iter().any(|other| other.who == holding.who) {
            let held = listed(old, &holding.held);
            lines += &format!(
                "{}: only in the old one, touched {held}\n",
                old.holder(&holding.who)
            );
        }
    }
    match lines.is_empty() {
        true => "nobody may touch more, and nobody less\n".into(),
        false => lines,
    }
}

/// What a holder of both may touch more, and what less.
fn changed((old, before): (&Holdings, &Holding), (new, after): (&Holdings, &Holding)) -> String {
    let beyond = |held: &[u16], other: &[u16]| -> Vec<u16> {
        held.iter()
            .copied()
            .filter(|object| !other.contains(object))
            .collect()
    };
    let more = beyond(&after.held, &before.held);
    let less = beyond(&before.held, &after.held);
    let mut says = Vec::new();
    if let Who::Object(object) = after.who {
        if let (Some(was), Some(is)) = (old.form(object), new.form(object)) {
            if was != is {
                says.push(format!("was of form {was}"));
            }
        }
    }
    if !more.is_empty() {
        says.push(format!("may touch more: {}", listed(new, &more)));
    }
    if !less.is_empty() {
        says.push(format!("may touch less: {}", listed(old, &less)));
    }
    match says.is_empty() {
        true => String::new(),
        false => format!("{}: {}\n", new.holder(&after.who), says.join("; ")),
    }
}

/// Objects with what they are.
fn listed(holdings: &Holdings, objects: &[u16]) -> String {
    if objects.is_empty() {
        return numbers(objects, "nothing");
    }
    let words = objects
        .iter()
        .map(|object| match holdings.about(*object).as_str() {
            "" => object.to_string(),
            about => format!("{object} ({about})"),
        });
    let words: Vec<String> = words.collect();
    words.join(", ")
}
