//! A small program over the library: a sheet on standard input, the answer to
//! one question on standard output, in the second program's words.

use boundary::{authority, bound, fit, form, group, run, verdict};
use boundary::{Begins, FitResult, RunResult, AUTHORITY, WORK};
use std::io::Read;
use std::process::ExitCode;

const USAGE: &str = "usage: boundary verdict | boundary fit A B | boundary form F \
                     | boundary run BUDGET | boundary authority BUDGET HOLDER \
                     | boundary group BUDGET HOLDER.. | boundary bound  \
                     (a sheet on standard input)";

fn main() -> ExitCode {
    let words: Vec<String> = std::env::args().skip(1).collect();
    let words: Vec<&str> = words.iter().map(String::as_str).collect();
    let mut text = Vec::new();
    if std::io::stdin().read_to_end(&mut text).is_err() {
        eprintln!("boundary: standard input can't be read");
        return ExitCode::FAILURE;
    }
    match answer(&words, &text) {
        Some(lines) => print!("{lines}"),
        None => {
            eprintln!("{USAGE}");
            return ExitCode::from(2);
        }
    }
    ExitCode::SUCCESS
}

fn answer(words: &[&str], text: &[u8]) -> Option<String> {
    let mut work = vec![0; WORK];
    match words {
        ["verdict"] => {
            let given = verdict(text, &mut work);
            Some(refused(&given))
        }
        ["fit", a, b] => {
            let given = fit(text, a.parse().ok()?, b.parse().ok()?, &mut work);
            Some(match given.refusal {
                0 => fit_lines(given),
                _ => refused(&given),
            })
        }
        ["form", number] => {
            let given = form(text, number.parse().ok()?, &mut work);
            let lines = &text[given.start..given.start + given.length];
            Some(match given.refusal {
                0 => String::from_utf8_lossy(lines).into_owned(),
                _ => refused(&given),
            })
        }
        ["run", budget] => {
            let given = run(text, budget.parse().ok()?, &mut work);
            Some(match given.refusal {
                0 => run_lines(given),
                _ => refused(&given),
            })
        }
        ["bound"] => {
            let given = bound(text, &mut work);
            Some(match given.refusal {
                0 => format!("bound={}\n", given.steps),
                _ => refused(&given),
            })
        }
        _ => held(words, text, &mut work),
    }
}

/// Whether a row fits another, what is lacking, and the members passed.
fn fit_lines(given: FitResult) -> String {
    let FitResult { fits, passed, .. } = given;
    format!("fit={fits}{}\npassed={passed}\n", lacking(",", &given))
}

/// What a holder holds, or a list of them.
fn held(words: &[&str], text: &[u8], work: &mut [u16]) -> Option<String> {
    let mut result = [0; AUTHORITY];
    match words {
        ["authority", budget, holder] => {
            let (budget, holder) = (budget.parse().ok()?, holder.parse().ok()?);
            let given = authority(text, budget, holder, work, &mut result);
            Some(match given.refusal {
                0 => holder_line(holder, &result[..given.count as usize]),
                _ => refused(&given),
            })
        }
        ["group", budget, holders @ ..] => {
            let budget = budget.parse().ok()?;
            let holders = holders.iter().map(|holder| holder.parse().ok());
            let holders = holders.collect::<Option<Vec<u16>>>()?;
            let given = group(text, budget, &holders, work, &mut result);
            Some(match given.refusal {
                0 => second::group_line(&result[..given.count as usize]),
                _ => refused(&given),
            })
        }
        _ => None,
    }
}

/// A refusal's number and line, and of a misfit what is lacking.
fn refused(result: &impl Begins) -> String {
    let [number, line, ..] = result.four();
    let lacking = match lacking("lack=", result) {
        lacking if lacking.is_empty() => lacking,
        lacking => lacking + "\n",
    };
    format!("verdict={number}\nline={line}\n{lacking}")
}

/// What is lacking, after a word, with the name if it is a member; nothing
/// where nothing is.
fn lacking(word: &str, result: &impl Begins) -> String {
    match result.four() {
        [_, _, 0, _] => String::new(),
        [_, _, 3, name] => format!("{word}3,{name}"),
        [_, _, lack, _] => format!("{word}{lack}"),
    }
}

/// A holder and its authority; the bare holder where that is empty.
fn holder_line(holder: usize, held: &[u16]) -> String {
    let held: String = held.iter().map(|object| format!(",{object}")).collect();
    format!("holder={holder}{held}\n")
}

fn run_lines(given: RunResult) -> String {
    let RunResult {
        outcome,
        steps,
        value,
        objects,
        ..
    } = given;
    format!("outcome={outcome}\nsteps={steps}\nvalue={value}\nobjects={objects}\n")
}
