//! The program over the library: a sheet on standard input, an answer on
//! standard output.

#![forbid(unsafe_code)]

use std::io::{self, Read, Write};
use std::process::ExitCode;

const USAGE: &str = "\
usage: second                          judge, run 10,000 steps, print all
       second fit A B                  fit=1 for yes, fit=0,2 for kind or
                                       fit=0,3,N for member N, and passed=P,
                                       the members of row A that were passed
       second form F                   the lines of form F as they stand
       second verdict                  verdict=0 and line=0
       second run BUDGET               run=OUTCOME,STEPS,VALUE,OBJECTS
       second authority BUDGET HOLDER  holder=HOLDER,OBJECT,.. ascending
       second group BUDGET HOLDER..    group=OBJECT,.. ascending
       second bound                    bound=STEPS, the most steps that a sheet
                                       can need whose bodies call lower names
                                       only
       second --help                   this text

The sheet is read from standard input. A, B, F, BUDGET and HOLDER are decimals
from 0 to 4294967295. Forms count from 0. Main is holder 256. The bare holder is
printed where an authority is empty. A group lists any number of holders, or
none; more than 16 are refused. The bare word group is printed where its joined
authority is empty. A refusal is printed as verdict=N and line=L in place of the
answer, with exit status 0. Where a word asks, a misfit (verdict=10) has a third
line: lack=1 for count, lack=2 for kind or lack=3,N for member N. A wrong command
line exits with status 2.
";

/// What the command line asks for.
enum Question {
    Print,
    Fit(u32, u32),
    Form(u32),
    Verdict,
    Run(u32),
    Authority(u32, u32),
    Group(u32, Vec<u32>),
    Bound,
    Help,
}

fn main() -> ExitCode {
    let words: Vec<String> = match std::env::args_os()
        .skip(1)
        .map(|word| word.into_string().ok())
        .collect()
    {
        Some(words) => words,
        None => Vec::from([String::from("?")]),
    };
    let words: Vec<&str> = words.iter().map(String::as_str).collect();
    let Some(question) = question(&words) else {
        eprint!("{USAGE}");
        return ExitCode::from(2);
    };
    match answer(question) {
        Ok(()) => ExitCode::SUCCESS,
        Err(error) => {
            eprintln!("second: {error}");
            ExitCode::FAILURE
        }
    }
}

fn question(words: &[&str]) -> Option<Question> {
    Some(match words {
        [] => Question::Print,
        ["fit", a, b] => Question::Fit(number(a)?, number(b)?),
        ["form", form] => Question::Form(number(form)?),
        ["verdict"] => Question::Verdict,
        ["run", budget] => Question::Run(number(budget)?),
        ["authority", budget, holder] => Question::Authority(number(budget)?, number(holder)?),
        ["group", budget, holders @ ..] => Question::Group(number(budget)?, numbers(holders)?),
        ["bound"] => Question::Bound,
        ["--help"] => Question::Help,
        _ => return None,
    })
}

/// A 32-bit unsigned number; signs are turned away.
fn number(word: &str) -> Option<u32> {
    let digits = word.bytes().all(|byte| byte.is_ascii_digit());
    word.parse().ok().filter(|_| digits)
}

/// A number for each word; none if a word is no number.
fn numbers(words: &[&str]) -> Option<Vec<u32>> {
    words.iter().map(|word| number(word)).collect()
}

fn answer(question: Question) -> io::Result<()> {
    let text = match question {
        Question::Help => Vec::new(),
        _ => read_input()?,
    };
    let answer = match question {
        Question::Print => Ok(second::print(&text)),
        Question::Fit(a, b) => second::fit(&text, a, b).map(second::fit_lines),
        Question::Form(form) => second::form(&text, form as usize).map(plain),
        Question::Verdict => second::verdict(&text).map(|()| String::from(second::NO_REFUSAL)),
        Question::Run(budget) => second::run(&text, budget).map(run_line),
        Question::Authority(budget, holder) => {
            second::authority(&text, budget, holder).map(|held| second::holder_line(holder, &held))
        }
        Question::Group(budget, holders) => {
            second::group(&text, budget, &holders).map(|held| second::group_line(&held))
        }
        Question::Bound => second::bound(&text).map(|steps| format!("bound={steps}\n")),
        Question::Help => Ok(String::from(USAGE)),
    };
    let lines = answer.unwrap_or_else(second::question_lines);
    io::stdout().write_all(lines.as_bytes())
}

/// The sheet, or of a text that is too long its first bytes, one too many.
/// The rest is read and forgotten, so that no writer is cut off.
fn read_input() -> io::Result<Vec<u8>> {
    let mut input = io::stdin().lock();
    let mut text = Vec::new();
    let most = second::sheet::TEXT_LIMIT as u64 + 1;
    input.by_ref().take(most).read_to_end(&mut text)?;
    io::copy(&mut input, &mut io::sink())?;
    Ok(text)
}

/// The lines of a sheet that can be read, which are plain text.
fn plain(lines: &[u8]) -> String {
    String::from_utf8_lossy(lines).into_owned()
}

fn run_line(answer: second::RunAnswer) -> String {
    format!(
        "run={},{},{},{}\n",
        answer.outcome as u8, answer.steps, answer.value, answer.objects
    )
}
