//! The report and the program.

use generator::bounds::Bounds;
use generator::report::{report, Report, DEVICE_SHARE, IDLE_SHARE, STRICT_SHARE};
use generator::usable::{Thing, THINGS};
use std::process::{Command, Output};

fn program(words: &[&str]) -> Output {
    Command::new(env!("CARGO_BIN_EXE_generator"))
        .args(words)
        .output()
        .expect("the program runs")
}

#[test]
fn a_run_of_sheets_reaches_everything() {
    let report = report(1, 1_500);
    assert_eq!(report.missing(), Vec::<String>::new());
    assert_eq!(report.sheets, 1_500);
    assert_eq!(report.accepted + refused(&report), 1_500);
    assert_eq!(report.outcomes.iter().sum::<u64>(), report.accepted);
    for (place, uses) in report.uses.iter().enumerate() {
        assert!(*uses >= 20, "census {place}: {uses}");
    }
    assert!(report.fits.iter().all(|count| *count > 0));
    assert!(report.causes.iter().all(|count| *count > 0));
    assert_eq!(report.lacks.iter().sum::<u64>(), report.refusals[10]);
    assert!(report.lacks[1..].iter().all(|count| *count > 0));
    let [answered, not] = report.groups;
    assert_eq!(answered + not, report.accepted);
    assert!(answered.min(not) * 3 > report.accepted);
    let line = format!("group answered: {answered}, no holder: {not}\n");
    assert!(report.lines().contains(&line));
    for number in (3..=10).chain([14]) {
        assert!(report.late[number] > 0, "no late refusal {number}");
    }
    check_bounds(&report);
    check_usable(&report);
    check_devices(&report);
}

/// How many sheets were refused; 11 is given to accepted ones.
fn refused(report: &Report) -> u64 {
    let all: u64 = report.refusals.iter().sum();
    all - report.refusals[11]
}

fn check_devices(report: &Report) {
    assert_eq!(report.devices.sheets, report.accepted);
    let sheets = report.sheets.div_ceil(DEVICE_SHARE);
    assert_eq!(report.device.sheets, sheets);
    assert_eq!(report.device.equipped, sheets);
    let some = report.devices.equipped;
    assert!(some * 8 > report.accepted, "{some} sheets have devices");
    for (name, devices) in [
        ("accepted", &report.devices),
        ("device sheets", &report.device),
    ] {
        assert!(report.lines().contains(&devices.lines(name)));
    }
    assert!(report.lines().contains(&report.device_refusals.lines()));
}

fn check_usable(report: &Report) {
    assert_eq!(report.usable.sheets, report.accepted);
    assert_eq!(report.idle.sheets, report.sheets.div_ceil(IDLE_SHARE));
    for (place, name) in THINGS.iter().enumerate() {
        // A field that is set anew takes a run of some length.
        let rare = place == Thing::StartLost as usize;
        let accepted = report.usable.counts[place];
        assert!(
            rare || accepted * 100 > report.accepted,
            "{name}: {accepted}"
        );
        let idle = report.idle.counts[place];
        assert!(idle * 20 > report.idle.sheets, "{name}: {idle}");
    }
    for (name, usable) in [("accepted", &report.usable), ("idle", &report.idle)] {
        assert!(report.lines().contains(&usable.lines(name)));
    }
}

fn check_bounds(report: &Report) {
    let all = |bounds: &Bounds| {
        let refused = bounds.circular + bounds.beyond + bounds.others;
        bounds.answered + refused
    };
    assert_eq!(all(&report.bounds), report.sheets);
    assert_eq!(all(&report.strict), report.sheets.div_ceil(STRICT_SHARE));
    assert!(report.bounds.answered > 0 && report.bounds.circular > 0);
    assert_eq!(report.bounds.others, refused(report));
    for (name, bounds) in [
        ("sheets", &report.bounds),
        ("strict sheets", &report.strict),
    ] {
        assert!(report.lines().contains(&bounds.line(name)));
    }
}

#[test]
fn what_is_missing_is_told() {
    // Refusals, outcomes, the cases of misfit alone and beside others,
    // answers to the question for the most steps, things for the authority
    // question, and things and faults of devices.
    let all = 10 + 4 + 24 + 31 + 5 + 13 + 31 + 22;
    assert_eq!(Report::default().missing().len(), all);
    let few = program(&["report", "1", "3"]);
    assert_eq!(few.status.code(), Some(1));
    let message = String::from_utf8_lossy(&few.stderr).into_owned();
    assert!(message.contains("refusal 2, refusal 3"), "{message}");
    assert!(message.contains("misfit by put, kind alone"), "{message}");
}

#[test]
fn the_program_writes_sheets_and_reports() {
    for index in [0, 17, 23, 36] {
        let text = program(&["8", &index.to_string()]);
        assert_eq!(text.stdout, generator::sheet(8, index));
        assert_eq!(text.status.code(), Some(0));
    }
    let text = program(&["mill", "8", "3"]);
    assert_eq!(text.stdout, generator::mill(8, 3));
    let text = program(&["idle", "8", "3"]);
    assert_eq!(text.stdout, generator::idle(8, 3));
    let text = program(&["device", "8", "3"]);
    assert_eq!(text.stdout, generator::device(8, 3));
    let text = program(&["readable", "8", "3"]);
    assert_eq!(text.stdout, generator::readable(8, 3));
    let text = program(&["strict", "8", "3"]);
    assert_eq!(text.stdout, generator::strict(8, 3));
    let text = program(&["wide", "8", "3"]);
    assert_eq!(text.stdout, generator::wide(8, 3));
    let told = program(&["report", "2", "1500"]);
    assert_eq!(told.status.code(), Some(0));
    assert_eq!(told.stdout, report(2, 1_500).lines().into_bytes());
}

#[test]
fn wrong_command_lines() {
    let cases: [&[&str]; 14] = [
        &[],
        &["1"],
        &["1", "x"],
        &["-1", "2"],
        &["report", "1"],
        &["mill", "1", "x"],
        &["idle", "1", "x"],
        &["device", "1", "x"],
        &["devices", "1", "2"],
        &["readable", "1", "x"],
        &["strict", "1", "x"],
        &["wide", "1", "x"],
        &["wider", "1", "2"],
        &["a", "b", "c"],
    ];
    for words in cases {
        let output = program(words);
        assert_eq!(output.status.code(), Some(2), "{words:?}");
        assert!(output.stdout.is_empty() && !output.stderr.is_empty());
    }
}
