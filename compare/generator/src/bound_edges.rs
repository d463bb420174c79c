//! The question for the most steps at its edges, with the answers that the
//! rules give. What a call costs is said with its own line: the amount of
//! the called name and one.

use std::fmt::Write;

/// The answer: steps, or a refusal's number and line.
pub type BoundAnswer = Result<u32, (u32, u32)>;

/// A sheet and its answer.
type Edge = (String, BoundAnswer);

/// Texts and their answers, worked out by hand.
pub fn bound_edges() -> Vec<(Vec<u8>, BoundAnswer)> {
    let groups = [plain(), limit(), far(), names(), bodies(), full()];
    let edges = groups.into_iter().flatten();
    edges
        .map(|(text, answer)| (text.into_bytes(), answer))
        .collect()
}

/// Lines written with ` / ` between them.
fn lines(text: &str) -> String {
    text.replace(" / ", "\n") + "\n"
}

/// Instructions with the line that counts them.
fn code(key: &str, parts: &[(usize, &str)]) -> String {
    let count: usize = parts.iter().map(|(count, _)| count).sum();
    let parts = parts.iter().map(|(count, line)| lines(line).repeat(*count));
    format!("{key}={count}\n") + &parts.collect::<String>()
}

/// The worked cases of the rules, and mains that call nothing.
fn plain() -> Vec<Edge> {
    let makes = |count: usize| {
        let main = code("main", &[(count, "new=0")]);
        lines("types=1 / type=0,0 / forms=1 / form=0,0") + &main
    };
    let clerk = "types=3 / type=0,0 / type=1,1 / def=1,0,0 / type=1,1 / def=2,0,0 / forms=3 / \
                 form=0,0 / form=1,0 / body=1 / copy=1 / form=2,1 / keep=1 / body=1 / \
                 call=2,1,1 / main=4 / new=0 / new=1 / new=2,1 / call=2,2,0";
    let around = "types=2 / type=0,0 / type=1,1 / def=1,0,0 / forms=2 / form=0,0 / form=1,0 / \
                  body=1 / call=0,1,1 / main=3 / new=0 / new=1 / call=1,1,0";
    vec![
        (lines(clerk), Ok(8)),
        (lines(around), Err((12, 9))),
        (makes(1), Ok(1)),
        (makes(32), Ok(32)),
        (makes(33), Err((4, 5))),
    ]
}

/// One form with all names. Name 0 has 13 copies, so a call of it costs 15,
/// that is 16^1 - 1. Each other name calls the one below 16 times and has 13
/// copies, so it costs 16 * (16^k - 1) + 13 + 2, that is 16^(k+1) - 1. The
/// highest name has `last` copies in place of 13. The form is object 0.
fn sixteens(names: usize, last: usize, main: &[(usize, &str)]) -> String {
    let mut text = format!("types=2\ntype=1,0\ntype=1,{names}\n");
    for name in 0..names {
        let _ = writeln!(text, "def={name},0,0");
    }
    text += "forms=1\nform=1,0\n";
    for name in 0..names {
        let copies = if name + 1 == names { last } else { 13 };
        text += &match name {
            0 => code("body", &[(copies, "copy=1")]),
            _ => {
                let call = format!("call=0,{},1", name - 1);
                code("body", &[(16, &call), (copies, "copy=1")])
            }
        };
    }
    text + &code("main", main)
}

/// Amounts near the limit, 2^32 - 1, and names whose own is near it.
fn limit() -> Vec<Edge> {
    // 1 + 16 * (2^28 - 1) + copies, that is 2^32 - 15 + copies.
    let sum = |copies| {
        let main = [(1, "new=0"), (16, "call=0,6,0"), (copies, "copy=0")];
        sixteens(7, 13, &main)
    };
    // Name 7 costs 2^32 - 14 + last. Main has one more for `new`.
    let one = |last, times| sixteens(8, last, &[(1, "new=0"), (times, "call=0,7,0")]);
    // The same with main calling name 6 alone, which costs 2^28 - 1.
    let spared = |last| sixteens(8, last, &[(1, "new=0"), (1, "call=0,6,0")]);
    vec![
        (sum(0), Ok(4_294_967_281)),
        (sum(13), Ok(4_294_967_294)),
        (sum(14), Ok(4_294_967_295)),
        (sum(15), Err((13, 0))),
        (one(11, 1), Ok(4_294_967_294)),
        (one(12, 1), Ok(4_294_967_295)),
        // The name's own amount is 2^32 - 2, 2^32 - 1 and 2^32.
        (one(13, 1), Err((13, 0))),
        (one(14, 1), Err((13, 0))),
        (one(15, 1), Err((13, 0))),
        (one(16, 1), Err((13, 0))),
        (one(12, 2), Err((13, 0))),
        (one(16, 2), Err((13, 0))),
        (one(16, 31), Err((13, 0))),
        // Nobody calls the name that is over the limit.
        (spared(14), Ok(268_435_456)),
        (spared(15), Ok(268_435_456)),
        (spared(16), Ok(268_435_456)),
    ]
}

/// Names 0 to 63, eight to a row; each row's form keeps an object of the row
/// below. Name 0 has one copy, so a call of it costs 3. Each other name calls
/// the one below `calls` times and has `copies` copies. Main makes the eight
/// objects, from slot 0 up.
fn tower(calls: usize, copies: usize, main: &[(usize, &str)]) -> String {
    let mut text = String::from("types=9\ntype=1,0\n");
    for name in 0..64 {
        if name % 8 == 0 {
            text += "type=1,8\n";
        }
        let _ = writeln!(text, "def={name},0,0");
    }
    text += "forms=8\nform=1,0\nbody=1\ncopy=1\n";
    for name in 1..64 {
        let (row, first) = (name / 8, name % 8 == 0);
        if first {
            let _ = write!(text, "form={},1\nkeep={row}\n", row + 1);
        }
        let slot = if first { 2 } else { 0 };
        let call = format!("call={slot},{},1", name - 1);
        text += &code("body", &[(calls, &call), (copies, "copy=1")]);
    }
    let made = "new=0 / new=1,0 / new=2,1 / new=3,2 / new=4,3 / new=5,4 / new=6,5 / new=7,6";
    let made: Vec<(usize, &str)> = made.split(" / ").map(|line| (1, line)).collect();
    text + &code("main", &[&made, main].concat())
}

/// Amounts far beyond the limit. With 4 calls and a copy, name k costs
/// 4 * (4^k - 1) + 1 + 2, that is 4^(k+1) - 1.
fn far() -> Vec<Edge> {
    let fours = |main: &[(usize, &str)]| tower(4, 1, main);
    vec![
        // 8 + 2^32 - 1, 8 + 2^64 - 1 and 8 + 2^128 - 1: 7 in short numbers.
        (fours(&[(1, "call=1,15,0")]), Err((13, 0))),
        (fours(&[(1, "call=3,31,0")]), Err((13, 0))),
        (fours(&[(1, "call=7,63,0")]), Err((13, 0))),
        (fours(&[(24, "call=7,63,0")]), Err((13, 0))),
        // The low names before and after it change nothing.
        (
            fours(&[(1, "call=0,0,0"), (1, "call=7,63,0")]),
            Err((13, 0)),
        ),
        (
            fours(&[(1, "call=7,63,0"), (1, "call=0,0,0")]),
            Err((13, 0)),
        ),
        // Names up to 2^128 that main does not need: 8 + times * (2^30 - 1).
        (fours(&[(1, "call=1,14,0")]), Ok(1_073_741_831)),
        (fours(&[(3, "call=1,14,0")]), Ok(3_221_225_477)),
        (fours(&[(4, "call=1,14,0")]), Err((13, 0))),
        (fours(&[(1, "copy=0")]), Ok(9)),
        // 1,018 instructions, of which 1,008 call: more than 16^63 steps.
        (tower(16, 0, &[(1, "call=7,63,0")]), Err((13, 0))),
        // Name 1 costs 16 * 3 + 2.
        (tower(16, 0, &[(1, "call=0,1,0")]), Ok(58)),
    ]
}

/// One form with the names 0 and 63, object 0. The lines 9 and 11 are its
/// bodies, 14 is main's last.
fn two_names(low: &str, high: &str, main: &str) -> String {
    lines(&format!(
        "types=2 / type=1,0 / type=1,2 / def=0,0,0 / def=63,0,0 / forms=1 / form=1,0 / body=1 / \
         {low} / body=1 / {high} / main=2 / new=0 / {main}"
    ))
}

/// Which names may be called, and which refusal comes first.
fn names() -> Vec<Edge> {
    let (top, bottom) = ("call=0,63,0", "call=0,0,0");
    let same_name = "types=3 / type=1,0 / type=1,1 / def=7,0,0 / type=0,1 / def=7,0,0 / forms=2 / \
                     form=2,0 / body=1 / copy=1 / form=1,1 / keep=2 / body=1 / call=2,7,1 / \
                     main=3 / new=0 / new=1,0 / call=1,7,0";
    let beyond = sixteens(8, 16, &[(1, "new=0"), (1, "call=0,7,0")]);
    let beyond = beyond.replacen("call=0,0,1", "call=0,1,1", 1);
    vec![
        // Amounts 2 and 1 + 1 + 2, and main's own two lines.
        (two_names("copy=1", "call=0,0,1", top), Ok(6)),
        (two_names("copy=1", "call=0,0,1", bottom), Ok(4)),
        (two_names("copy=1", "copy=1", top), Ok(4)),
        (two_names("call=0,0,1", "copy=1", top), Err((12, 9))),
        (two_names("call=0,63,1", "copy=1", "copy=0"), Err((12, 9))),
        (two_names("copy=1", "call=0,63,1", bottom), Err((12, 11))),
        (two_names("call=0,63,1", "call=0,63,1", top), Err((12, 9))),
        // Reading and typing come before, on whatever line.
        (two_names("call=0,0,1", "copy=1", "copy=1"), Err((7, 14))),
        (two_names("call=0,0,1", "get=1", "copy=0"), Err((9, 11))),
        (two_names("get=1", "call=0,63,1", "copy=0"), Err((9, 9))),
        (two_names("call=0,0,1", "copy=1", "new=0,0"), Err((10, 14))),
        (
            two_names("call=0,0,1", "copy=1", "call=0,1,0"),
            Err((9, 14)),
        ),
        // Another object's method of the same name.
        (lines(same_name), Err((12, 14))),
        // A circular call in a sheet that is beyond count as well.
        (beyond, Err((12, CIRCULAR_BEYOND))),
    ]
}

/// In `sixteens` with 8 names: 3 lines, 8 names, `forms`, `form`, `body` and
/// 13 copies, then the `body` line of name 1 and its first call.
const CIRCULAR_BEYOND: u32 = 3 + 8 + 2 + 1 + 13 + 1 + 1;

/// The second form is made by nobody. Line 12 is its last.
fn idle(line: &str) -> String {
    lines(&format!(
        "types=2 / type=1,0 / type=1,1 / def=5,0,0 / forms=2 / form=1,0 / body=1 / copy=1 / \
         form=1,0 / body=2 / copy=1 / {line} / main=2 / new=0 / call=0,5,0"
    ))
}

/// Row 2 has no form: its method has no body, and only the argument of a body
/// that nobody can call has that row. The calls stand on lines 15 to 17.
fn without(name: u32) -> String {
    lines(&format!(
        "types=4 / type=1,0 / type=1,1 / def=2,0,0 / type=1,1 / def={name},0,0 / type=1,1 / \
         def=2,2,0 / forms=2 / form=1,0 / body=1 / copy=1 / form=3,0 / body=3 / \
         call=1,{name},0 / call=1,{name},1 / call=1,{name},1 / main=2 / new=0 / call=0,2,0"
    ))
}

/// What counts as a body, and of which name.
fn bodies() -> Vec<Edge> {
    // Three forms of one row; main makes the first and calls name 5 twice.
    let sizes = |sizes: [usize; 3]| {
        let mut text = lines("types=2 / type=1,0 / type=1,1 / def=5,0,0 / forms=3");
        for size in sizes {
            text += &(lines("form=1,0") + &code("body", &[(size, "copy=1")]));
        }
        text + &lines("main=3 / new=0 / call=0,5,0 / call=0,5,0")
    };
    // Fields have higher names, and one stands before each method.
    let fields = "types=2 / type=1,0 / type=1,4 / var=0,0 / def=1,0,0 / var=2,0 / def=3,0,0 / \
                  forms=2 / form=0,0 / form=1,1 / keep=0 / init=0 / body=2 / get=2 / put=2,1 / \
                  init=0 / body=2 / put=0,1 / call=0,1,1 / main=3 / new=0 / new=1,0 / call=1,3,0";
    vec![
        (sizes([1, 2, 7]), Ok(3 + 2 * 8)),
        (sizes([7, 2, 1]), Ok(3 + 2 * 8)),
        (sizes([2, 32, 1]), Ok(3 + 2 * 33)),
        (idle("copy=0"), Ok(2 + 3)),
        (idle("call=0,5,1"), Err((12, 12))),
        // Name 1 needs 3, name 3 then 2 + 3 + 1.
        (lines(fields), Ok(3 + 6)),
        // Three calls of a name that needs nothing, and the return.
        (without(1), Ok(2 + 4)),
        (without(3), Err((12, 15))),
    ]
}

/// Full store and full stack in sheets that are sure to finish.
fn full() -> Vec<Edge> {
    let makers = |times| {
        let head = "types=2 / type=1,0 / type=1,1 / def=0,0,0 / forms=1 / form=1,0";
        let main = code("main", &[(1, "new=0"), (times, "call=0,0,0")]);
        lines(head) + &code("body", &[(32, "new=0")]) + &main
    };
    vec![
        // Each of the calls makes 32 objects: 225 objects, or 257.
        (makers(7), Ok(8 + 7 * 33)),
        (makers(8), Ok(9 + 8 * 33)),
        // One call a body: name k needs 2 * (k + 1). The chain from name 62
        // down has 64 frames with main's, the one from name 63 would have 65.
        (tower(1, 0, &[(1, "call=7,62,0")]), Ok(8 + 1 + 126)),
        (tower(1, 0, &[(1, "call=7,63,0")]), Ok(8 + 1 + 128)),
    ]
}
