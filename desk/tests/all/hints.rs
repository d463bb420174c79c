//! What is said of faults that writers of sheets meet: stored for each.

use crate::common::{is_stored, ROOT};
use desk::commands::judge;
use desk::format::Format;
use desk::library::Library;
use desk::style::Style;
use desk::text::Text;
use std::fs;

/// P, with some of its bytes changed.
fn clerk(change: impl Fn(&str) -> String) -> Vec<u8> {
    let clerk = fs::read_to_string(format!("{ROOT}/examples/clerk.sheet")).expect("P");
    change(&clerk).into_bytes()
}

/// P with a line in place of another, by number.
fn with(line: usize, words: &str) -> Vec<u8> {
    clerk(|clerk| {
        let lines = clerk.lines().zip(1..);
        let lines = lines.map(|(old, number)| if number == line { words } else { old });
        lines.map(|line| format!("{line}\n")).collect()
    })
}

/// A sheet written with ` / ` for its line breaks.
fn lines(sheet: &str) -> Vec<u8> {
    (sheet.replace(" / ", "\n") + "\n").into_bytes()
}

/// Faults in a line's shape: refusal 3.
fn torn() -> Vec<(&'static str, Vec<u8>)> {
    vec![
        ("empty", Vec::new()),
        (
            "carriage-returns",
            clerk(|clerk| clerk.replace('\n', "\r\n")),
        ),
        (
            "one-carriage-return",
            clerk(|clerk| clerk.replace("main=4\n", "main=4\r\n")),
        ),
        (
            "carriage-returns-alone",
            clerk(|clerk| clerk.replace('\n', "\r")),
        ),
        ("byte-order-mark", clerk(|clerk| format!("\u{feff}{clerk}"))),
        ("utf-16", b"\xff\xfet\0y\0p\0e\0s\0=\x003\0\n\0".to_vec()),
        ("blank-after-main", clerk(|clerk| format!("{clerk}\n"))),
        (
            "blank-before-forms",
            clerk(|clerk| clerk.replace("forms", "\nforms")),
        ),
        ("no-final-byte-10", clerk(|clerk| clerk.trim_end().into())),
        ("cut-off", clerk(|clerk| clerk[..clerk.len() - 12].into())),
        (
            "early-end",
            clerk(|clerk| clerk.replace("call=2,2,0\n", "")),
        ),
        ("body-for-init", lines(BODY_FOR_INIT)),
        ("init-for-body", with(10, "init=0")),
        ("wrong-count", with(3, "type=1,1,0")),
        ("too-few-numbers", with(4, "def=1,0")),
        ("no-slot", with(17, "new")),
        ("ten-numbers", with(19, "new=2,1,1,1,1,1,1,1,1,1")),
        ("too-many-members", with(3, "type=1,2")),
        ("too-few-members", with(3, "type=1,0")),
        ("too-few-kept", with(12, "form=2,0")),
        ("too-few-devices", lines(TOO_FEW_DEVICES)),
        ("too-many-lines-in-main", with(16, "main=3")),
        ("too-few-lines-in-main", with(16, "main=5")),
        (
            "too-many-lines-in-a-body",
            clerk(|clerk| clerk.replace("copy=1\n", "copy=1\ncopy=1\ncopy=2\n")),
        ),
        ("65536", with(4, "def=1,65536,0")),
        ("leading-zero", with(1, "types=03")),
        ("zeros", with(2, "type=00,0")),
        ("minus", with(2, "type=-1,0")),
        ("hexadecimal", with(2, "type=0x1,0")),
        ("no-number", with(1, "types=")),
        ("two-commas", with(4, "def=1,,0")),
        ("a-space", with(3, "type=1, 1")),
        ("a-space-before", with(3, " type=1,1")),
        ("capital", with(1, "Types=3")),
        ("comment", with(7, "# the forms")),
        ("no-equals", with(7, "forms 3")),
        ("no-key", with(7, "=3")),
        ("unknown-key", with(7, "froms=3")),
        ("escape-codes", with(7, "\x1b[31mforms=3")),
        ("not-ascii", with(7, "förms=3")),
        ("missing-device", with(16, "devices=1")),
        ("devices-twice", lines(DEVICES_TWICE)),
        (
            "a-very-long-key",
            with(7, &format!("{}=3", "forms".repeat(900))),
        ),
        (
            "a-very-long-number",
            with(7, &format!("forms=3{}", "x3".repeat(900))),
        ),
        (
            "over-the-limit-of-main",
            clerk(|clerk| clerk.to_string() + &"copy=0\n".repeat(29)),
        ),
        (
            "a-very-long-line",
            with(19, &format!("new=2,1{}", ",1".repeat(4_000))),
        ),
    ]
}

/// Refusals 2 and 4 to 7.
fn read() -> Vec<(&'static str, Vec<u8>)> {
    let methods: String = (0..8).map(|name| format!(" / def={name},0,0")).collect();
    let body = format!(" / body=32{}", " / copy=1".repeat(32));
    let form = format!(" / form=1,0{}", body.repeat(8));
    let bodies = format!(
        "types=2 / type=0,0 / type=0,8{methods} / forms=5{} / main=1 / new=0",
        form.repeat(5)
    );
    vec![
        ("too-long", clerk(|clerk| clerk.repeat(400))),
        ("no-rows", with(1, "types=0")),
        ("kind-2", with(3, "type=2,1")),
        ("9-members", with(3, "type=1,9")),
        ("name-64", with(4, "def=64,0,0")),
        ("65-forms", with(7, "forms=65")),
        ("9-kept-values", with(12, "form=2,9")),
        ("empty-body", with(10, "body=0")),
        ("33-in-main", with(16, "main=33")),
        ("call-of-name-64", with(20, "call=2,64,0")),
        ("no-devices", with(16, "devices=0")),
        ("1025-instructions", lines(&bodies)),
        (
            "same-name",
            lines("types=2 / type=0,0 / type=0,2 / def=3,0,0 / def=3,0,0"),
        ),
        (
            "lower-name",
            lines("types=2 / type=0,0 / type=0,3 / def=2,0,0 / def=4,0,0 / def=3,0,0"),
        ),
        ("twin", with(6, "def=1,0,0")),
        ("empty-twin", lines("types=2 / type=0,0 / type=0,0")),
        ("own-row", with(4, "def=1,1,0")),
        ("later-row", with(4, "def=1,0,2")),
        ("no-row", with(4, "def=1,0,9")),
        ("row-0-mentions", lines("types=1 / type=0,1 / def=1,0,0")),
        ("form-of-no-row", with(9, "form=3,0")),
        ("keep-of-no-row", with(13, "keep=7")),
        ("no-kept-value", lines(NO_KEPT_VALUE)),
        ("new-of-no-form", with(17, "new=3")),
        ("own-slot", with(18, "new=2,1")),
        ("later-slot", with(20, "call=2,2,7")),
        ("slot-in-a-body", with(15, "call=5,1,1")),
        ("no-slot-yet", with(17, "copy=0")),
        (
            "device-of-no-form",
            lines("types=1 / type=1,0 / forms=1 / form=0,0 / devices=1 / device=1"),
        ),
    ]
}

const BODY_FOR_INIT: &str =
    "types=2 / type=1,0 / type=1,1 / var=1,0 / forms=1 / form=1,1 / keep=0 / body=1";
const NO_KEPT_VALUE: &str =
    "types=2 / type=1,0 / type=1,1 / var=1,0 / forms=1 / form=1,1 / keep=0 / init=1";
const DEVICES_TWICE: &str =
    "types=1 / type=1,0 / forms=1 / form=0,0 / devices=1 / device=0 / devices=1";
const TOO_FEW_DEVICES: &str = "types=1 / type=1,0 / forms=1 / form=0,0 / devices=1 / device=0 / \
                               device=0 / device=0 / main=1 / copy=0";

/// Rows of different kinds: a pure and a resource row without members, two with
/// a method, one with a field, and a shelf with a field and a method. Then the
/// first three forms.
const ROWS: &str = "types=6 / type=0,0 / type=1,0 / type=1,1 / def=1,1,0 / type=1,1 / def=1,0,1 / \
                    type=1,1 / var=1,0 / type=1,2 / var=1,1 / def=2,1,0 / \
                    forms=4 / form=0,0 / form=1,0";

/// With a form 2 of row 2, and the rest of a sheet.
fn rows(rest: &str) -> Vec<u8> {
    lines(&format!("{ROWS} / form=2,0 / body=1 / new=0 / {rest}"))
}

/// With a shelf whose method has this body.
fn shelf(body: &str) -> Vec<u8> {
    rows(&format!(
        "form=5,1 / keep=1 / init=0 / {body} / main=1 / new=0"
    ))
}

/// Sheets that are written out: a pure row's field, a field that gets a
/// resource, fields of different rows, and methods of which the results or the
/// arguments do not fit.
const PURE_FIELD: &str = "types=2 / type=0,0 / type=0,1 / var=1,0 / forms=2 / form=0,0 / \
                          form=1,1 / keep=0 / init=0 / main=2 / new=0 / new=1,0";
const FIELD_KIND: &str = "types=3 / type=0,0 / type=1,0 / type=1,2 / var=1,0 / def=2,1,1 / \
                          forms=2 / form=0,0 / form=2,1 / keep=0 / init=0 / body=2 / put=1,1 / \
                          copy=1 / main=2 / new=0 / new=1,0";
const FIELD_ROWS: &str = "types=4 / type=0,0 / type=1,0 / type=1,1 / var=1,0 / type=1,1 / \
                          var=1,1 / forms=3 / form=0,0 / form=2,1 / keep=0 / init=0 / form=1,1 / \
                          keep=3 / main=3 / new=0 / new=1,0 / new=2,1";
const RESULTS: &str = "types=4 / type=0,0 / type=1,0 / type=1,1 / def=1,0,1 / type=1,1 / \
                       def=1,0,0 / forms=4 / form=0,0 / form=1,0 / form=2,0 / body=1 / new=1 / \
                       form=1,1 / keep=3 / main=3 / new=0 / new=2 / new=3,1";
const ARGUMENTS: &str = " / form=3,0 / body=1 / new=1 / form=1,1 / keep=2 / main=2 / new=2 / \
                         new=3,0";

/// Refusals 8 to 10 and 14.
fn typed() -> Vec<(&'static str, Vec<u8>)> {
    vec![
        ("pure-with-a-field", lines(PURE_FIELD)),
        ("pure-keeps-a-resource", with(5, "type=0,1")),
        ("no-method", with(20, "call=2,3,0")),
        ("a-field-is-called", shelf("body=1 / call=0,1,1")),
        ("no-members-at-all", with(20, "call=0,1,0")),
        ("get-in-main", with(20, "get=1")),
        ("put-in-main", with(20, "put=1,0")),
        ("no-field", shelf("body=1 / get=3")),
        ("a-method-is-read", shelf("body=1 / get=2")),
        ("count-too-high", with(18, "new=1,0")),
        ("count-too-low", with(19, "new=2")),
        ("kept-lacks-a-method", with(19, "new=2,0")),
        ("argument-kind", with(20, "call=2,2,1")),
        ("argument-before-result", with(15, "call=2,1,0")),
        ("field-kind", lines(FIELD_KIND)),
        ("field-rows", lines(FIELD_ROWS)),
        ("result-kind", shelf("body=1 / copy=0")),
        ("another-slot-as-result", with(11, "copy=0")),
        ("method-s-result", lines(RESULTS)),
        ("method-s-argument", lines(&format!("{ROWS}{ARGUMENTS}"))),
        (
            "init",
            rows("form=4,2 / keep=1 / keep=0 / init=0 / main=1 / new=0"),
        ),
        (
            "nothing-would-fit",
            rows("form=1,1 / keep=4 / main=2 / new=2 / new=3,0"),
        ),
        ("device-keeps", clerk(|clerk| device(clerk, 2))),
        ("device-is-pure", clerk(|clerk| device(clerk, 0))),
    ]
}

/// P with a device.
fn device(clerk: &str, form: u16) -> String {
    clerk.replace("main=4", &format!("devices=1\ndevice={form}\nmain=4"))
}

#[test]
fn every_hint_is_stored() {
    let mut library = Library::new();
    for (group, sheets) in [("torn", torn()), ("read", read()), ("typed", typed())] {
        let mut printed = String::new();
        for (name, bytes) in sheets {
            let text = Text::of(name, &bytes);
            let judged = judge(&mut library, &text, false);
            assert!(judged.answer.is_err(), "{name} is accepted");
            printed += &judged.record(Format::Text, Style::PLAIN);
            printed += "\n";
        }
        is_stored(&format!("hints-{group}.txt"), &printed);
    }
}
