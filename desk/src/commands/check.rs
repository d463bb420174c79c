//! `desk check`: the verdict on sheets.

use super::Command;
use crate::args::{Choice, Given, Usage};
use crate::counts::Counts;
use crate::desk::{Desk, Status};
use crate::explain::explain;
use crate::finding::Finding;
use crate::format::{Format, Judged, TSV_HEAD};
use crate::json;
use crate::library::Library;
use crate::progress::Progress;
use crate::text::{Files, Text, STDIN};
use std::ffi::OsStr;
use std::io::{self, Write};

pub const COMMAND: Command = Command {
    word: "check",
    takes: "FILE|DIR|-..",
    about: "judge sheets, and say what is wrong with those that are refused",
    more: "A folder stands for every file below it that ends in .sheet, and - for standard input.\n\
           Answers go to standard output. With more than one sheet the counts by refusal follow on\n\
           standard error, and progress before them where that is a terminal.\n\
           \n\
           text   the refusal, the line with a mark, and what would do\n\
           gcc    FILE:LINE:COLUMN: error: .., for editors; accepted sheets have no line\n\
           json   one document: a list of sheets, and the counts\n\
           tsv    a head, then a line a sheet: file, refusal, line, column, word, reason, mark, notes",
    choices: &[
        Choice {
            name: "--format",
            value: Some("text|gcc|json|tsv"),
            about: "how the answers look (text)",
        },
        Choice {
            name: "--quiet",
            value: None,
            about: "nothing of accepted sheets, no counts and no progress",
        },
        Choice {
            name: "--unattended",
            value: None,
            about: "accept only sheets that are sure to finish, with their most steps",
        },
    ],
    examples: &[
        ("desk check clerk.sheet", "one sheet"),
        ("desk check --format tsv sheets/ > verdicts.tsv", "a folder, as a table"),
        ("desk check --unattended --quiet sheets/", "for a plant that bakes alone"),
    ],
    run,
};

/// Asks the library about a text: its verdict, and the most steps if they are
/// asked for.
pub fn judge<'a>(library: &mut Library, text: &'a Text, unattended: bool) -> Judged<'a> {
    let answer = match unattended {
        true => library.bound(&text.bytes).map(Some),
        false => library.verdict(&text.bytes).map(|()| None),
    };
    let finding = match answer {
        Ok(_) => Finding::default(),
        Err(error) => explain(library, text, error),
    };
    Judged {
        text,
        answer,
        finding,
    }
}

/// A check at work.
struct Check {
    format: Format,
    quiet: bool,
    unattended: bool,
    counts: Counts,
    progress: Progress,
    /// Whether no record was printed yet.
    first: bool,
}

fn run(given: &Given, desk: &mut Desk) -> Result<(), Usage> {
    if given.words.is_empty() {
        return Usage::new("takes a file, a folder or -");
    }
    if given.words.iter().filter(|word| *word == STDIN).count() > 1 {
        return Usage::new("- stands twice");
    }
    let format = match given.value("--format").map(|name| (name, Format::of(name))) {
        None => Format::Text,
        Some((_, Some(format))) => format,
        Some((name, None)) => return Usage::new(format!("there is no format {name}")),
    };
    let mut files = Files::default();
    for word in &given.words {
        files.add(word);
    }
    let quiet = given.has("--quiet");
    let mut check = Check {
        format,
        quiet,
        unattended: given.has("--unattended"),
        counts: Counts::default(),
        progress: Progress::of(files.found.len(), quiet),
        first: true,
    };
    check.begin(desk);
    for unread in &files.unread {
        check.counts.unread += 1;
        desk.unread(unread);
    }
    for file in &files.found {
        check.file(desk, file.as_os_str());
    }
    check.end(desk, files.found.len());
    Ok(())
}

impl Check {
    fn begin(&self, desk: &mut Desk) {
        match self.format {
            Format::Json => desk.put("{\"sheets\":["),
            Format::Tsv => desk.put(TSV_HEAD),
            Format::Text | Format::Gcc => (),
        }
    }

    fn file(&mut self, desk: &mut Desk, file: &OsStr) {
        self.progress.show(&self.counts);
        match Text::read(file) {
            Err(unread) => {
                self.progress.clear();
                self.counts.unread += 1;
                desk.unread(&unread);
            }
            Ok(text) => {
                let judged = judge(&mut desk.library, &text, self.unattended);
                self.counts.add(judged.answer.err());
                if judged.answer.is_err() {
                    desk.ended(Status::Refused);
                }
                if judged.answer.is_err() || !self.quiet {
                    self.put(desk, &judged);
                }
            }
        }
    }

    fn put(&mut self, desk: &mut Desk, judged: &Judged) {
        let record = judged.record(self.format, desk.style);
        let record = match (self.format, self.first) {
            (Format::Json, true) => format!("\n{record}"),
            (Format::Json, false) => format!(",\n{record}"),
            _ => record,
        };
        self.first = false;
        if desk.is_seen() {
            self.progress.clear();
            desk.put(&record);
            desk.flush();
        } else {
            desk.put(&record);
        }
    }

    /// The counts, which of many sheets are the last line.
    fn end(&mut self, desk: &mut Desk, files: usize) {
        if self.format == Format::Json {
            let counts = self.counts.as_json();
            desk.put(&format!("\n],\n{}:{counts}}}\n", json::string("counts")));
        }
        desk.flush();
        self.progress.clear();
        if files > 1 && !self.quiet {
            let _ = writeln!(io::stderr(), "{}", self.counts);
        }
    }
}
