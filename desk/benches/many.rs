//! Times of `desk check` on a folder of sheets, of each format.

use std::fs;
use std::path::{Path, PathBuf};
use std::process::{Command, Stdio};
use std::time::Instant;

/// The sheets of a folder.
const SHEETS: u64 = 1_000;
/// The best of this number of rounds counts.
const ROUNDS: usize = 7;

type Maker = fn(u64, u64) -> Vec<u8>;

/// Writes a folder of sheets; tells where, and how many bytes they have.
fn folder(name: &str, sheet: Maker) -> (PathBuf, usize) {
    let folder = Path::new(env!("CARGO_TARGET_TMPDIR")).join(format!("bench-{name}"));
    let _ = fs::remove_dir_all(&folder);
    fs::create_dir_all(&folder).expect("a folder");
    let mut bytes = 0;
    for index in 0..SHEETS {
        let text = sheet(1, index);
        bytes += text.len();
        fs::write(folder.join(format!("{index:04}.sheet")), text).expect("a sheet");
    }
    (folder, bytes)
}

/// Milliseconds that a check takes, the process included.
fn timed(format: &str, folder: &Path) -> f64 {
    let times = (0..ROUNDS).map(|_| {
        let start = Instant::now();
        let status = Command::new(env!("CARGO_BIN_EXE_desk"))
            .args(["check", "--format", format])
            .arg(folder)
            .stdout(Stdio::null())
            .stderr(Stdio::null())
            .status();
        assert!(status.expect("the command starts").code() < Some(2));
        start.elapsed().as_secs_f64() * 1e3
    });
    times.fold(f64::INFINITY, f64::min)
}

fn main() {
    let kinds: [(&str, Maker); 4] = [
        ("right and wrong", generator::sheet),
        ("with devices", generator::device),
        ("readable, mostly ill typed", generator::readable),
        ("wide rows", generator::wide),
    ];
    println!("| {SHEETS} sheets | bytes | text ms | gcc ms | json ms | tsv ms |");
    println!("|---|---:|---:|---:|---:|---:|");
    for (name, sheet) in kinds {
        let (folder, bytes) = folder(&name.replace([' ', ','], "-"), sheet);
        let times = ["text", "gcc", "json", "tsv"].map(|format| timed(format, &folder));
        let times: String = times.iter().map(|ms| format!(" {ms:.0} |")).collect();
        println!("| {name} | {bytes} |{times}");
    }
}
