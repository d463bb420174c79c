//! The command for people who write sheets: `desk`.
//!
//! Every verdict, line, run and set that it shows is the proved library's
//! answer, and so is what a misfit lacks. Words, marks and numbers of rows,
//! forms and slots come from a plain reading of the lines; where that can't
//! say more, the library's answer stands alone.

#![forbid(unsafe_code)]

pub mod args;
pub mod commands;
pub mod counts;
pub mod desk;
mod excerpt;
pub mod explain;
pub mod finding;
pub mod follow;
pub mod format;
pub mod help;
pub mod holding;
mod json;
pub mod key;
pub mod library;
pub mod line;
pub mod manual;
mod meaning;
pub mod picture;
mod progress;
pub mod reader;
pub mod reading;
mod slot;
pub mod style;
pub mod text;
pub mod timeline;
mod words;

use args::{Given, Usage};
use commands::{Command, COMMANDS};
use desk::{Desk, Status};
use std::ffi::OsString;

/// Does what the words say; they come without the command's own name.
pub fn obey(words: Vec<OsString>) -> Status {
    let mut desk = Desk::new();
    if let Err(Usage(why)) = choose(words, &mut desk) {
        desk.complain(&why);
    }
    desk.flush();
    desk.status
}

fn choose(mut words: Vec<OsString>, desk: &mut Desk) -> Result<(), Usage> {
    if words.is_empty() {
        return Usage::new("no word; `desk --help` lists them");
    }
    let first = words.remove(0);
    let page = match first.to_str() {
        Some("--help" | "-h" | "help") if words.is_empty() => help::page(),
        Some("help") => help::command_page(command(&words.remove(0))?),
        Some("--version" | "-V") => help::version(),
        _ => return command(&first).and_then(|command| run(command, words, desk)),
    };
    desk.put(&page);
    Ok(())
}

fn command(word: &OsString) -> Result<&'static Command, Usage> {
    let found = COMMANDS.iter().find(|command| word == command.word);
    let shown = word.to_string_lossy();
    found.ok_or_else(|| {
        Usage(format!(
            "there is no word {shown}; `desk --help` lists them"
        ))
    })
}

fn run(command: &Command, words: Vec<OsString>, desk: &mut Desk) -> Result<(), Usage> {
    if words.iter().any(|word| word == "--help" || word == "-h") {
        desk.put(&help::command_page(command));
        return Ok(());
    }
    let word = command.word;
    let given = Given::of(words, command.choices);
    let done = given.and_then(|given| (command.run)(&given, desk));
    done.map_err(|Usage(why)| Usage(format!("{word}: {why}; `desk {word} --help` says more")))
}
