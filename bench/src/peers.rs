//! The run beside two interpreters that are in use: Lua 5.4 and wabt's
//! wasm-interp, on the same work written for each. Neither counts steps nor
//! asks for a budget.

use crate::programs::{Program, Question};
use crate::run_sheets::{Work, COUNTED, SLOW, TIMED, WORKS};
use crate::table::{decimal, Table};
use crate::timing::{self, timed, Timed};
use crate::tools::{is_there, output, Scratch};
use crate::{counts, lua, runs, wasm};
use second::{RunAnswer, Sheet};
use std::process::Command;
use std::time::Instant;

/// Runs of a short sheet that make one time, and one count.
const TIMED_RUNS: u32 = 2_000;
const COUNTED_RUNS: u32 = 100;

/// Which interpreters this machine has.
struct Found {
    lua: bool,
    wasm: bool,
}

/// Prints the table, or says what is missing.
pub fn table() {
    let found = Found {
        lua: is_there("lua5.4", "-v", "lua5.4"),
        wasm: is_there("wat2wasm", "--version", "wabt")
            && is_there("wasm-interp", "--version", "wabt"),
    };
    if !found.lua && !found.wasm {
        return;
    }
    let mut table = Table::new(&[
        "run, ns a step",
        "here",
        "Lua",
        "Lua to here",
        "wasm-interp",
        "to here",
        "instructions",
        "Lua",
        "wasm-interp",
    ]);
    for work in &WORKS {
        table.add(row(work, &found));
    }
    table.print();
}

fn row(work: &Work, found: &Found) -> Vec<String> {
    let (here, lua, wasm) = times(work, found);
    let mut cells = vec![work.name.to_string(), decimal(here, 2)];
    cells.extend([
        decimal(lua, 2),
        decimal(lua.map(|lua| lua / here), 1),
        decimal(wasm, 2),
        decimal(wasm.map(|wasm| wasm / here), 1),
    ]);
    let small = Text::new(work, COUNTED, COUNTED_RUNS);
    let lua = found.lua.then(|| lua_count(&small)).flatten();
    let wasm = found.wasm.then(|| wasm_count(&small)).flatten();
    let here = runs::count(Program::Library, work);
    cells.extend([here, lua, wasm].map(|count| decimal(count, 1)));
    cells
}

/// A sheet, its answer, and how many runs of it are made.
struct Text {
    text: String,
    sheet: Sheet,
    wanted: RunAnswer,
    runs: u32,
}

impl Text {
    /// Of a sheet whose run is short `runs` runs are made.
    fn new(work: &Work, levels: usize, runs: u32) -> Text {
        let text = (work.sheet)(levels);
        let wanted = second::run(text.as_bytes(), u32::MAX);
        let sheet = second::read(text.as_bytes());
        Text {
            sheet: sheet.expect("an accepted sheet"),
            wanted: wanted.expect("an accepted sheet"),
            runs: if work.runs == 1 { 1 } else { runs },
            text,
        }
    }

    /// How many steps all its runs take.
    fn steps(&self) -> f64 {
        f64::from(self.wanted.steps) * f64::from(self.runs)
    }
}

/// Nanoseconds a step of the library, Lua and wasm-interp, in turns. Reading
/// and starting are taken off by the same without a step.
fn times(work: &Work, found: &Found) -> (f64, Option<f64>, Option<f64>) {
    let text = Text::new(work, TIMED, TIMED_RUNS);
    let slow = Text::new(work, SLOW, TIMED_RUNS);
    let call = |budget: u32| Program::Library.call(Question::Run(budget), text.text.as_bytes());
    let mut all: Vec<Timed> = vec![timed(text.runs, call(0)), timed(text.runs, call(u32::MAX))];
    if found.lua {
        all.push(lua_time(&text));
    }
    if found.wasm {
        all.push(wasm_time(&slow, 0));
        all.push(wasm_time(&slow, slow.runs));
    }
    let best = timing::best(5, &mut all);
    let here = (best[1] - best[0]) / f64::from(text.wanted.steps);
    let lua = found.lua.then(|| best[2] / text.steps());
    let wasm = found.wasm.then(|| {
        let [.., start, whole] = best[..] else {
            unreachable!("both were timed")
        };
        (whole - start) / slow.steps()
    });
    (here, lua, wasm)
}

/// The nanoseconds that the program prints, whose answer is the wanted one.
fn lua_time(text: &Text) -> Timed<'_> {
    let file = Scratch::new("timed.lua", lua::program(&text.sheet, text.runs).as_bytes());
    let wanted = [text.wanted.value, text.wanted.objects].map(|number| number.to_string());
    Box::new(move || {
        let printed = output(Command::new("lua5.4").arg(file.path())).stdout;
        let printed = String::from_utf8_lossy(&printed);
        let words: Vec<&str> = printed.split_whitespace().collect();
        assert_eq!(words[1..], wanted, "Lua");
        words[0].parse::<f64>().expect("seconds") * 1e9
    })
}

/// A module's code, which makes `runs` runs.
fn wasm_code(sheet: &Sheet, runs: u32) -> Scratch {
    let text = Scratch::new("run.wat", wasm::module(sheet, runs).as_bytes());
    let code = Scratch::new(&format!("run-{runs}.wasm"), &[]);
    let mut translate = Command::new("wat2wasm");
    output(translate.arg(text.path()).arg("-o").arg(code.path()));
    code
}

/// The nanoseconds that the interpreter takes for a module, start and all.
fn wasm_time(text: &Text, runs: u32) -> Timed<'_> {
    let code = wasm_code(&text.sheet, runs);
    let value = if runs == 0 { 0 } else { text.wanted.value };
    let wanted = format!("run() => i32:{value}");
    Box::new(move || {
        let start = Instant::now();
        let mut command = Command::new("wasm-interp");
        let printed = output(command.arg(code.path()).arg("--run-all-exports")).stdout;
        let time = start.elapsed().as_secs_f64() * 1e9;
        assert_eq!(String::from_utf8_lossy(&printed).trim(), wanted);
        time
    })
}

/// Instructions a step of the whole process, less those without a run.
fn lua_count(text: &Text) -> Option<f64> {
    let [whole, start] = [text.runs, 0].map(|runs| {
        let file = Scratch::new("counted.lua", lua::program(&text.sheet, runs).as_bytes());
        counts::of_process(&["lua5.4".as_ref(), file.path().as_os_str()])
    });
    Some((whole? - start?) / text.steps())
}

fn wasm_count(text: &Text) -> Option<f64> {
    let [whole, start] = [text.runs, 0].map(|runs| {
        let code = wasm_code(&text.sheet, runs);
        let path = code.path().as_os_str();
        counts::of_process(&["wasm-interp".as_ref(), path, "--run-all-exports".as_ref()])
    });
    Some((whole? - start?) / text.steps())
}
