//! The pages of the command and of each of its words.

use crate::commands::{Command, COMMANDS};
use lexondar::VERSION;

/// The command's own page.
pub fn page() -> String {
    let mut page = String::from(
        "desk: checks sheets for dough-room terminals, and shows what they mean and do\n\n\
         usage: desk WORD ..\n\n",
    );
    for command in &COMMANDS {
        let Command { word, about, .. } = command;
        page += &format!("  {word:<9} {about}\n");
    }
    page += "\n\
             `desk WORD --help` has a word's own page, and docs/SHEET.md the sheet's manual.\n\
             Exit status: 0 all accepted, 1 some refused, 2 wrong words or a file that can't be read.\n\n\
             example:\n  desk check clerk.sheet\n";
    page
}

/// A word's page.
pub fn command_page(command: &Command) -> String {
    let mut page = format!(
        "{}: {}\n\nusage: {}\n",
        command.word,
        command.about,
        usage(command)
    );
    if !command.more.is_empty() {
        page += &format!("\n{}\n", command.more);
    }
    if !command.choices.is_empty() {
        page += "\n";
    }
    for choice in command.choices {
        let name = match choice.value {
            Some(value) => format!("{} {value}", choice.name),
            None => choice.name.into(),
        };
        page += &format!("  {name:<28} {}\n", choice.about);
    }
    page += match command.examples.len() {
        1 => "\nexample:\n",
        _ => "\nexamples:\n",
    };
    for (typed, what) in command.examples {
        page += &format!("  {typed}\n      {what}\n");
    }
    page
}

/// How a word is used, in a line.
pub fn usage(command: &Command) -> String {
    let choices = command.choices.iter().map(|choice| match choice.value {
        Some(value) => format!(" [{} {value}]", choice.name),
        None => format!(" [{}]", choice.name),
    });
    let choices: String = choices.collect();
    format!("desk {} {}{choices}", command.word, command.takes)
}

/// The command's version and the library's.
pub fn version() -> String {
    let own = env!("CARGO_PKG_VERSION");
    format!("desk {own}, library {VERSION}\n")
}
