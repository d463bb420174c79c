//! The program over the generator.

#![forbid(unsafe_code)]

use std::io::{self, Write};
use std::process::ExitCode;

const USAGE: &str = "\
usage: generator SEED INDEX           write one sheet to standard output
       generator mill SEED INDEX      write one mill to standard output
       generator idle SEED INDEX      write one sheet that holds more than it
                                      names to standard output
       generator device SEED INDEX    write one sheet with devices to standard
                                      output
       generator readable SEED INDEX  write one readable sheet, mostly ill
                                      typed, to standard output
       generator strict SEED INDEX    write one sheet that is sure to finish, or
                                      is one call away from that, to standard
                                      output
       generator wide SEED INDEX      write one sheet of wide rows to standard
                                      output
       generator report SEED COUNT    judge and run sheets 0 to COUNT - 1 of a
                                      seed and tell what they reach; exits with
                                      status 1 if a refusal from 2 to 10 or
                                      14, an outcome, a case of misfit, an
                                      answer to the question for the most
                                      steps, a thing for the authority question
                                      or a thing or fault of devices is reached
                                      by none
       generator --help               this text

SEED, INDEX and COUNT are decimals of 64 bits.
";

fn main() -> ExitCode {
    let words: Vec<String> = std::env::args_os()
        .skip(1)
        .map(|word| word.to_string_lossy().into_owned())
        .collect();
    let words: Vec<&str> = words.iter().map(String::as_str).collect();
    let result = match words[..] {
        ["--help"] => put(USAGE.as_bytes()),
        ["report", seed, count] => match (number(seed), number(count)) {
            (Some(seed), Some(count)) => tell(seed, count),
            _ => return wrong(),
        },
        [kind, seed, index] => match (maker(kind), number(seed), number(index)) {
            (Some(make), Some(seed), Some(index)) => put(&make(seed, index)),
            _ => return wrong(),
        },
        [seed, index] => match (number(seed), number(index)) {
            (Some(seed), Some(index)) => put(&generator::sheet(seed, index)),
            _ => return wrong(),
        },
        _ => return wrong(),
    };
    result.unwrap_or_else(|error| {
        eprintln!("generator: {error}");
        ExitCode::FAILURE
    })
}

/// What makes the sheets of a kind beside the rotation.
fn maker(kind: &str) -> Option<fn(u64, u64) -> Vec<u8>> {
    match kind {
        "mill" => Some(generator::mill),
        "idle" => Some(generator::idle),
        "device" => Some(generator::device),
        "readable" => Some(generator::readable),
        "strict" => Some(generator::strict),
        "wide" => Some(generator::wide),
        _ => None,
    }
}

fn wrong() -> ExitCode {
    eprint!("{USAGE}");
    ExitCode::from(2)
}

fn number(word: &str) -> Option<u64> {
    let digits = word.bytes().all(|byte| byte.is_ascii_digit());
    word.parse().ok().filter(|_| digits)
}

fn put(bytes: &[u8]) -> io::Result<ExitCode> {
    io::stdout().write_all(bytes)?;
    Ok(ExitCode::SUCCESS)
}

fn tell(seed: u64, count: u64) -> io::Result<ExitCode> {
    let report = generator::report::report(seed, count);
    put(report.lines().as_bytes())?;
    let missing = report.missing();
    if missing.is_empty() {
        return Ok(ExitCode::SUCCESS);
    }
    eprintln!("generator: reached by no sheet: {}", missing.join(", "));
    Ok(ExitCode::FAILURE)
}
