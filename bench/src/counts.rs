//! Instructions, counted by callgrind: of one call, for which this program
//! starts itself, or of a whole process.

use crate::programs::{Answer, Program, Question};
use crate::tools::{is_there, output, Scratch};
use std::ffi::OsStr;
use std::hint::black_box;
use std::process::Command;
use std::sync::OnceLock;

/// The first word of a process that is started to be counted.
const WORD: &str = "count";

fn can_count() -> bool {
    static FOUND: OnceLock<bool> = OnceLock::new();
    *FOUND.get_or_init(|| is_there("valgrind", "--version", "valgrind"))
}

/// The instructions of one call; none if there is no callgrind.
pub fn of_call(program: Program, question: Question, text: &[u8]) -> Option<f64> {
    let sheet = Scratch::new("counted.sheet", text);
    let own = std::env::current_exe().expect("this program has a path");
    let mut words = vec!["--toggle-collect=counted_call".into(), own.into_os_string()];
    words.push(WORD.into());
    words.push(program.word().into());
    words.extend(question.words().map(Into::into));
    words.push(sheet.path().into());
    of_process(&words)
}

/// The instructions of a command; none if there is no callgrind.
pub fn of_process(words: &[impl AsRef<OsStr>]) -> Option<f64> {
    if !can_count() {
        return None;
    }
    let mut command = Command::new("valgrind");
    // Callgrind counts every repetition of a repeated store, 65,536 for one
    // that clears the work buffer; so the C library has to use plain ones.
    command.env("GLIBC_TUNABLES", "glibc.cpu.hwcaps=-ERMS");
    command.args(["--tool=callgrind", "--callgrind-out-file=/dev/null"]);
    let printed = output(command.args(words)).stderr;
    let printed = String::from_utf8_lossy(&printed);
    let mut lines = printed.lines();
    let count = lines.find_map(|line| line.split_once("Collected : "));
    let count = count.expect("callgrind says what it collected").1;
    Some(count.trim().parse().expect("a number"))
}

/// If this process was started to be counted: asks the question once, so that
/// everything it needs is bound and warm, then once more under the count.
pub fn is_counted() -> bool {
    let words: Vec<String> = std::env::args().skip(1).collect();
    let words: Vec<&str> = words.iter().map(String::as_str).collect();
    let [WORD, program, question, a, b, path] = words[..] else {
        return false;
    };
    let program = Program::of(program).expect("a program");
    let question = Question::of([question, a, b]).expect("a question");
    let text = std::fs::read(path).expect("a sheet");
    let mut call = program.call(question, &text);
    let before = call();
    assert_eq!(counted_call(&mut *call), before);
    true
}

/// What is done in here is counted; callgrind knows it by its name. The answer
/// is looked at so that the call returns here.
#[no_mangle]
#[inline(never)]
pub fn counted_call(call: &mut dyn FnMut() -> Answer) -> Answer {
    black_box(call())
}
