//! `desk explain`: what a refusal means.

use super::Command;
use crate::args::{number, Given, Usage};
use crate::desk::Desk;
use crate::manual::{plain, section};
use lexondar::Reason;

pub const COMMAND: Command = Command {
    word: "explain",
    takes: "N",
    about: "say what refusal N means, with a wrong sheet and the same sheet mended",
    more: "Without N, all refusals with their words. It is what docs/SHEET.md says.",
    choices: &[],
    examples: &[("desk explain 10", "what a misfit is")],
    run,
};

fn run(given: &Given, desk: &mut Desk) -> Result<(), Usage> {
    match &given.words[..] {
        [] => {
            for reason in Reason::ALL {
                let (number, word) = (reason.number(), reason.word());
                desk.put(&format!("{number:>2}  {word:<14}{reason}\n"));
            }
            Ok(())
        }
        [word] => match section(number(word, "N", u32::MAX)?) {
            Some(section) => {
                desk.put(&plain(section));
                Ok(())
            }
            None => Usage::new(format!("there is no refusal {}", word.to_string_lossy())),
        },
        _ => Usage::new("takes one number"),
    }
}
