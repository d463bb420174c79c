//! Whether the timed sheets are what the tables say, and the C interpreters
//! deserve to be yardsticks.

use crate::plain_sheet::plain;
use crate::{agree, bounds, rows, run_sheets, runs, sheets};
use std::sync::{Mutex, MutexGuard, PoisonError};

/// The C interpreters keep objects and frames in static memory, so a test that
/// runs them waits for the other.
fn interpreters() -> MutexGuard<'static, ()> {
    static TURN: Mutex<()> = Mutex::new(());
    TURN.lock().unwrap_or_else(PoisonError::into_inner)
}

fn is_accepted(text: &str) -> bool {
    second::verdict(text.as_bytes()).is_ok()
}

#[test]
fn plain_sheets_have_their_size() {
    for bytes in [1 << 10, 5_708, 10 << 10] {
        let sheet = plain(bytes);
        assert!(is_accepted(&sheet), "{bytes}");
        let missing = bytes - sheet.len();
        assert!(missing < 10, "{missing} of {bytes}");
    }
}

#[test]
fn the_longest_sheet_is_accepted_and_64_kb_are_not() {
    let longest = sheets::longest();
    assert_eq!(longest.len(), 46_672);
    assert!(is_accepted(&longest));
    let (text, read) = sheets::over_long();
    assert_eq!(text.len(), 65_535);
    let refusal = second::verdict(text.as_bytes()).expect_err("bytes after main");
    let last = text[..read].lines().count() as u32;
    assert_eq!((refusal.number(), refusal.line), (3, last));
}

#[test]
fn slow_rows_are_at_their_limits() {
    let mut all = rows::SLOW.to_vec();
    all.push(("own names", rows::own_names));
    for (name, member) in all {
        let text = rows::alone(member);
        assert!(is_accepted(&text), "{name}");
        let sheet = second::read(text.as_bytes()).expect("an accepted sheet");
        let members: usize = sheet.rows.iter().map(|row| row.members.len()).sum();
        assert_eq!((sheet.rows.len(), members), (64, 63 * 8), "{name}");
    }
}

#[test]
fn the_slowest_sheet_has_every_instruction() {
    let text = sheets::slowest();
    assert!(is_accepted(&text));
    let lines = text.lines();
    assert_eq!(lines.filter(|line| line.starts_with("new=")).count(), 1_024);
}

#[test]
fn every_sheet_of_the_most_steps_is_answered() {
    for (name, text) in bounds::sheets() {
        let answer = second::bound(text.as_bytes());
        assert!(answer.is_ok(), "{name}: {answer:?}");
    }
}

#[test]
fn many_bodies_have_every_part_and_every_instruction() {
    let text = sheets::many_bodies();
    let sheet = second::read(text.as_bytes()).expect("an accepted sheet");
    let parts: usize = sheet.forms.iter().map(|form| form.parts.len()).sum();
    assert_eq!((sheet.forms.len(), parts), (64, 512));
    let count = |key: &str| text.lines().filter(|line| line.starts_with(key)).count();
    assert_eq!(count("body="), 512);
    assert_eq!(count("call="), 1_009);
    assert_eq!(count("call=") + count("copy=") + count("new="), 1_024);
}

#[test]
fn every_program_runs_the_smaller_sheets_alike() {
    let _turn = interpreters();
    for work in &run_sheets::WORKS {
        let text = (work.sheet)(run_sheets::COUNTED);
        assert!(runs::steps(text.as_bytes()) > 200, "{}", work.name);
    }
}

#[test]
fn the_c_interpreters_agree_with_the_second_program() {
    let _turn = interpreters();
    agree::check();
}
