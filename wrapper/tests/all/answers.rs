//! The wrapper on the paper's sheet, and on the example of each refusal.

use lexondar::{authority, bound, fit, form, group, report, run, verdict};
use lexondar::{Error, Fit, Held, Holders, Lack, Outcome, Reason, Refusal, Run, Walk, Work, MAIN};
use std::fmt::Debug;

const CLERK: &[u8] = include_bytes!("../../../examples/clerk.sheet");
const MAKERS: &[u8] = include_bytes!("../../../examples/makers.sheet");
const SURE: &[u8] = include_bytes!("../../../examples/sure.sheet");
const CIRCULAR: &[u8] = include_bytes!("../../../examples/circular.sheet");
const DEVICES: &[u8] = include_bytes!("../../../examples/devices.sheet");
const WRONG_DEVICE: &[u8] = include_bytes!("../../../examples/refused-14-device.sheet");

#[test]
fn the_clerk_is_accepted_and_runs() {
    let mut work = Work::new();
    assert_eq!(verdict(CLERK, &mut work), Ok(()));
    let done = Run {
        outcome: Outcome::Done { value: 0 },
        steps: 8,
        objects: 3,
    };
    assert_eq!(run(CLERK, 8, &mut work), Ok(done));
    let spent = Run {
        outcome: Outcome::Spent,
        steps: 7,
        objects: 3,
    };
    assert_eq!(run(CLERK, 7, &mut work), Ok(spent));
}

#[test]
fn the_clerk_s_rows_fit_as_far_as_they_are_passed() {
    let mut work = Work::new();
    let cases = [
        (1, 1, Fit::Yes, 1),
        (1, 0, Fit::Kind, 0),
        (0, 1, Fit::Member(1), 0),
        // Method 1 is passed, and method 2 is not there.
        (1, 2, Fit::Member(2), 1),
    ];
    for (a, b, fits, passed) in cases {
        let walk = Walk { fit: fits, passed };
        assert_eq!(fit(CLERK, a, b, &mut work), Ok(walk), "{a} and {b}");
    }
}

#[test]
fn each_holder_of_the_clerk_holds_what_the_paper_says() {
    let (mut work, mut held) = (Work::default(), Held::default());
    let sets: [(usize, &[u16]); 3] = [(MAIN, &[]), (1, &[1]), (2, &[1, 2])];
    for (holder, set) in sets {
        let given = authority(CLERK, 8, holder, &mut work, &mut held);
        assert_eq!(given, Ok(set), "holder {holder}");
    }
    let mut room = Holders::default();
    let (answer, holders) = report(CLERK, 10_000, &mut work, &mut room).expect("accepted");
    assert_eq!(answer.steps, 8);
    let all: Vec<(usize, &[u16])> = holders.map(|(holder, set)| (holder.into(), set)).collect();
    assert_eq!(all, sets);
}

#[test]
fn two_makers_hold_together_what_either_holds() {
    let (mut work, mut held) = (Work::new(), Held::new());
    let mut joined = |list: &[u16]| {
        let given = group(MAKERS, 100, list, &mut work, &mut held);
        given.map(<[u16]>::to_vec)
    };
    assert_eq!(joined(&[2, 3]), Ok(vec![2, 3, 4, 5]));
    assert_eq!(joined(&[3, 2, 3]), Ok(vec![2, 3, 4, 5]));
    assert_eq!(joined(&[]), Ok(vec![]));
    for list in [&[2, 0][..], &[2; 17]] {
        assert_eq!(joined(list), refused(Reason::NoHolder, 0));
    }
}

#[test]
fn the_clerk_s_forms_are_parts_of_the_caller_s_text() {
    let mut work = Work::new();
    let lines = [
        "form=0,0\n",
        "form=1,0\nbody=1\ncopy=1\n",
        "form=2,1\nkeep=1\nbody=1\ncall=2,1,1\n",
    ];
    let mut start = 63;
    for (number, lines) in lines.into_iter().enumerate() {
        let part = form(CLERK, number, &mut work).expect("a form of the sheet");
        let place = &CLERK[start..start + lines.len()];
        assert_eq!(part, lines.as_bytes(), "form {number}");
        assert!(std::ptr::eq(part, place), "form {number} is a copy");
        start += lines.len();
    }
    for number in [3, usize::MAX] {
        let given = form(CLERK, number, &mut work);
        assert_eq!(given, refused(Reason::NotDefined, 0));
    }
}

#[test]
fn a_sheet_that_is_sure_to_finish_is_not_spent() {
    let mut work = Work::new();
    assert_eq!(bound(CLERK, &mut work), Ok(8));
    let steps = bound(SURE, &mut work).expect("lower names only");
    assert_eq!(steps, 36);
    let done = Run {
        outcome: Outcome::Done { value: 7 },
        steps: 26,
        objects: 8,
    };
    assert_eq!(run(SURE, steps, &mut work), Ok(done));
    assert_eq!(run(CIRCULAR, steps, &mut work), Ok(done));
}

/// A refusal that lacks nothing.
fn refused<T>(reason: Reason, line: u32) -> Result<T, Error> {
    refused_for(reason, line, None)
}

fn refused_for<T>(reason: Reason, line: u32, lack: Option<Lack>) -> Result<T, Error> {
    Err(Error::Refused(Refusal { reason, line, lack }))
}

/// What a refusal says, in words.
fn words<T: Debug>(given: Result<T, Error>) -> String {
    given.expect_err("refused").to_string()
}

/// The examples of refused sheets, each with its reason and line.
const REFUSED: [(&str, Reason, u32); 8] = [
    ("refused-3-torn", Reason::Malformed, 20),
    ("refused-4-limit", Reason::OutOfLimit, 1),
    ("refused-5-order", Reason::NotAscending, 5),
    ("refused-6-twin", Reason::DuplicateRow, 6),
    ("refused-7-slot", Reason::NotDefined, 20),
    ("refused-8-pure", Reason::ImpureForm, 13),
    ("refused-9-method", Reason::NoSuchMember, 20),
    ("refused-10-misfit", Reason::Misfit, 19),
];

#[test]
fn each_refusal_has_its_name() {
    let mut work = Work::new();
    for (name, reason, line) in REFUSED {
        let root = env!("CARGO_MANIFEST_DIR");
        let text = std::fs::read(format!("{root}/../examples/{name}.sheet")).expect("an example");
        let lack = (reason == Reason::Misfit).then_some(Lack::Member(1));
        let given = verdict(&text, &mut work);
        assert_eq!(given, refused_for(reason, line, lack), "{name}");
        let given = bound(&text, &mut work);
        assert_eq!(given, refused_for(reason, line, lack), "{name}");
        let number = format!("refused-{}-", reason.number());
        assert!(name.starts_with(&number), "{name}");
    }
    let long = vec![b'\n'; 65_536];
    assert_eq!(verdict(&long, &mut work), refused(Reason::TextTooLong, 0));
    assert_eq!(verdict(b"", &mut work), refused(Reason::Malformed, 1));
}

#[test]
fn a_circular_call_is_refused_with_its_line() {
    let mut work = Work::new();
    let given = bound(CIRCULAR, &mut work);
    assert_eq!(given, refused(Reason::CircularCall, 21));
    let said = "refusal 12 (circular call) at line 21: \
                a body calls its method's own name or a higher one";
    assert_eq!(words(given), said);
    // What the verdict refuses is refused alike.
    let torn = &CIRCULAR[..CIRCULAR.len() - 1];
    assert_eq!(bound(torn, &mut work), refused(Reason::Malformed, 35));
    assert_eq!(verdict(torn, &mut work), refused(Reason::Malformed, 35));
}

/// A form with names 0 to 7: name 0 copies 31 times, and each other one calls
/// the name below as often. Main calls the highest.
fn beyond() -> String {
    let mut text = String::from("types=2\ntype=1,0\ntype=1,8\n");
    for name in 0..8 {
        text += &format!("def={name},0,0\n");
    }
    text += &format!("forms=1\nform=1,0\nbody=31\n{}", "copy=1\n".repeat(31));
    for name in 0..7 {
        let call = format!("call=0,{name},1\n");
        text += &format!("body=31\n{}", call.repeat(31));
    }
    text + "main=2\nnew=0\ncall=0,7,0\n"
}

#[test]
fn more_steps_than_32_bits_have_are_refused() {
    let mut work = Work::new();
    let text = beyond();
    assert_eq!(verdict(text.as_bytes(), &mut work), Ok(()));
    let given = bound(text.as_bytes(), &mut work);
    assert_eq!(given, refused(Reason::BeyondCount, 0));
    let said = "refusal 13 (beyond count): the most steps are over 4,294,967,295";
    assert_eq!(words(given), said);
}

/// A scale is device 0 and a valve device 1; the clerk, object 3, is given the
/// scale, and nobody but the valve itself holds the valve.
#[test]
fn devices_are_there_at_the_start_and_go_where_main_hands_them() {
    let (mut work, mut held) = (Work::new(), Held::new());
    let mut holds = |budget, holder| {
        let given = authority(DEVICES, budget, holder, &mut work, &mut held);
        given.expect("a holder").to_vec()
    };
    assert_eq!([holds(0, 0), holds(0, 1)], [[0], [1]]);
    assert_eq!(holds(0, MAIN), [0, 1]);
    assert_eq!(holds(10, 3), [0, 3]);
    assert_eq!(holds(10, MAIN), []);
    let given = run(DEVICES, 0, &mut work).expect("accepted");
    assert_eq!(given.objects, 2);
}

#[test]
fn a_wrong_device_is_refused_with_its_line() {
    let mut work = Work::new();
    let given = verdict(WRONG_DEVICE, &mut work);
    assert_eq!(given, refused(Reason::WrongDevice, 23));
    let said = "refusal 14 (wrong device) at line 23: a device's form keeps a value or is pure";
    assert_eq!(words(given), said);
}

/// Rows 0 pure; 1 resource, method 4; 2 resource, field 4 and method 5.
const ROWS: &[u8] = b"types=3\ntype=0,0\ntype=1,1\ndef=4,0,0\ntype=1,2\nvar=4,0\ndef=5,0,0\n\
                      forms=1\nform=0,0\nmain=1\nnew=0\n";

#[test]
fn what_is_lacking_is_said_in_words() {
    let mut work = Work::new();
    let cases = [
        (1, 1, "row 1 fits row 1"),
        (2, 0, "row 0 asks for a pure row"),
        (0, 1, "row 1 asks for method 4"),
        (2, 1, "row 1 asks for method 4"),
        (1, 2, "row 2 asks for field 4"),
    ];
    for (a, b, words) in cases {
        let walk = fit(ROWS, a, b, &mut work).expect("both rows are there");
        assert_eq!(walk.fit.words(ROWS, a, b).to_string(), words);
    }
}

#[test]
fn a_misfit_says_what_is_lacking() {
    let mut work = Work::new();
    let clerk = String::from_utf8(CLERK.to_vec()).expect("plain text");
    let misfit = |line: &str, by: &str| clerk.replace(line, by).into_bytes();
    let cases = [
        (misfit("new=2,1", "new=2"), Lack::Count, 19),
        (misfit("call=2,2,0", "call=2,2,1"), Lack::Kind, 20),
        (misfit("new=2,1", "new=2,0"), Lack::Member(1), 19),
    ];
    for (text, lack, line) in cases {
        let given = verdict(&text, &mut work);
        assert_eq!(given, refused_for(Reason::Misfit, line, Some(lack)));
        let said = "a value does not fit where it goes";
        let said = format!("refusal 10 (misfit) at line {line}: {said}: {lack}");
        assert_eq!(words(given), said);
    }
    let said = "the wanted row asks for member 1";
    assert_eq!(Lack::Member(1).to_string(), said);
}

#[test]
fn a_number_that_is_no_holder_is_refused_after_the_run() {
    let (mut work, mut held) = (Work::new(), Held::new());
    for holder in [0, 3, 255, 257, usize::MAX] {
        let given = authority(CLERK, 8, holder, &mut work, &mut held);
        assert_eq!(given, refused(Reason::NoHolder, 0));
        let said = "refusal 11 (no holder): there is no such holder, or over 16 are listed";
        assert_eq!(words(given), said);
    }
}
