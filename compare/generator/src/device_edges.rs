//! Sheets at the edges of the rules for devices, each with its verdict.

/// Refusal number and line; zeros if the sheet is accepted.
pub type Verdict = (u32, u32);

/// Rows: 0 pure empty, 1 resource empty, 2 resource with method 1. Forms: 0
/// pure, 1 and 2 right for a device, 3 keeps a value, 4 is pure and keeps one.
/// These are lines 1 to 17.
const HEAD: &str = "types=3 type=0,0 type=1,0 type=1,1 def=1,1,1 forms=5 form=0,0 form=1,0 \
                    form=2,0 body=1 copy=1 form=2,1 keep=1 body=1 copy=2 form=0,1 keep=0";

/// What stands on the lines from 18 on, and the verdict.
const TAILS: [(&str, Verdict); 39] = [
    ("devices=1 device=1 main=1 copy=0", (0, 0)),
    ("devices=1 device=2 main=1 call=0,1,0", (0, 0)),
    ("devices=1 device=2 main=1 new=0", (0, 0)),
    ("devices=2 device=1 device=1 main=1 copy=1", (0, 0)),
    ("devices=2 device=1 device=2 main=1 call=1,1,0", (0, 0)),
    ("devices=2 device=2 device=1 main=1 call=1,1,0", (9, 22)),
    ("devices=1 device=1 main=1 call=0,1,0", (9, 21)),
    ("devices=1 device=1 main=1 get=1", (9, 21)),
    ("devices=1 device=1 main=1 new=4,0", (10, 21)),
    ("devices=1 device=1 main=1 new=3", (10, 21)),
    ("devices=1 device=1 main=2 new=3,0 call=1,1,0", (0, 0)),
    ("devices=1 device=1 main=1 copy=1", (7, 21)),
    ("devices=1 device=1 main=2 copy=0 copy=1", (0, 0)),
    ("devices=1 device=1 main=2 copy=0 copy=2", (7, 22)),
    ("devices=1 device=5 main=1 copy=0", (7, 19)),
    ("devices=2 device=1 device=65535 main=1 copy=0", (7, 20)),
    ("devices=1 device=65536 main=1 copy=0", (3, 19)),
    ("devices=1 device=0 main=1 copy=0", (14, 19)),
    ("devices=1 device=3 main=1 copy=0", (14, 19)),
    ("devices=1 device=4 main=1 copy=0", (14, 19)),
    ("devices=2 device=1 device=3 main=1 copy=0", (14, 20)),
    ("devices=2 device=0 device=3 main=1 copy=0", (14, 19)),
    ("devices=1 device=0 main=1 get=1", (14, 19)),
    ("devices=1 device=3 main=1 new=3", (14, 19)),
    ("devices=1 device=3 main=1 copy=1", (7, 21)),
    ("devices=1 device=3 main=1 copy=0 copy=0", (3, 22)),
    ("devices=1 device=3 main=33 copy=0", (4, 20)),
    ("devices=0 main=1 new=0", (4, 18)),
    ("devices=65535 device=1 main=1 copy=0", (4, 18)),
    ("devices=01 device=1 main=1 copy=0", (3, 18)),
    ("devices=1,1 device=1 main=1 copy=0", (3, 18)),
    ("devices=1 device=1,1 main=1 copy=0", (3, 19)),
    ("devices=2 device=1 main=1 copy=0", (3, 20)),
    ("devices=1 device=1 device=1 main=1 copy=0", (3, 20)),
    (
        "devices=1 device=1 devices=1 device=1 main=1 copy=0",
        (3, 20),
    ),
    ("device=1 main=1 copy=0", (3, 18)),
    ("main=1 new=0 devices=1 device=1", (3, 20)),
    ("main=1 devices=1 device=1", (3, 19)),
    ("devices=1 device=1", (3, 20)),
];

/// All edges, in a fixed order.
pub fn device_edges() -> Vec<(Vec<u8>, Verdict)> {
    let tails = TAILS.iter();
    let mut edges: Vec<_> = tails
        .map(|(tail, verdict)| (lines(&format!("{HEAD} {tail}")), *verdict))
        .collect();
    edges.extend([
        (counted(7, 6), (0, 0)),
        (counted(8, 7), (0, 0)),
        (counted(8, 8), (7, 46)),
        (counted(9, 8), (4, 5)),
        (forms("63"), (0, 0)),
        (forms("64"), (7, 69)),
        (early("devices=1 device=0 forms=1 form=0,0"), (3, 3)),
        (early("forms=1 devices=1 device=0 form=0,0"), (3, 4)),
        (early("forms=0 devices=1 device=0"), (7, 5)),
        (store(8, 0), (0, 0)),
        (store(8, 1), (0, 0)),
        (store(1, 7), (0, 0)),
        (store(1, 8), (0, 0)),
        (stack("copy=1"), (0, 0)),
        (stack("call=0,0,1"), (0, 0)),
    ]);
    edges
}

/// The text of the edge of this number; all come round in turn.
pub fn edge(number: u64) -> Vec<u8> {
    let mut edges = device_edges();
    let count = edges.len() as u64;
    edges.swap_remove((number % count) as usize).0
}

fn lines(words: &str) -> Vec<u8> {
    let mut text = words.replace(' ', "\n");
    text.push('\n');
    text.into_bytes()
}

/// As many devices, and a main of 32 lines; the last copies the slot that it
/// would fill if there were `beyond` devices.
fn counted(devices: usize, beyond: usize) -> Vec<u8> {
    let all = " device=0".repeat(devices);
    let copies = " copy=0".repeat(31);
    let last = beyond + 31;
    lines(&format!(
        "types=1 type=1,0 forms=1 form=0,0 devices={devices}{all} main=32{copies} copy={last}"
    ))
}

/// All 64 forms, and a device.
fn forms(device: &str) -> Vec<u8> {
    let forms = " form=0,0".repeat(64);
    lines(&format!(
        "types=1 type=1,0 forms=64{forms} devices=1 device={device} main=1 copy=0"
    ))
}

/// Forms and devices in a wrong order, or without the form.
fn early(words: &str) -> Vec<u8> {
    lines(&format!("types=1 type=1,0 {words} main=1 copy=0"))
}

/// The first device makes 31 objects in each of eight calls; main makes some
/// more.
fn store(devices: usize, more: usize) -> Vec<u8> {
    let body = " new=0".repeat(31);
    let others = " device=0".repeat(devices - 1);
    let calls = " call=0,0,0".repeat(8);
    let makes = " new=0".repeat(more);
    lines(&format!(
        "types=2 type=1,0 type=1,1 def=0,0,0 forms=2 form=0,0 form=1,0 body=31{body} \
         devices={devices} device=1{others} main={}{calls}{makes}",
        8 + more
    ))
}

/// A device's body calls the next form's object, 62 deep; then this body.
fn stack(last: &str) -> Vec<u8> {
    let forms = (1..63).map(|form| format!(" form=1,0 body=2 new={form} call=2,0,1"));
    let forms: String = forms.collect();
    lines(&format!(
        "types=2 type=1,0 type=1,1 def=0,0,0 forms=63{forms} form=1,0 body=1 {last} \
         devices=2 device=0 device=62 main=1 call=0,0,1"
    ))
}
