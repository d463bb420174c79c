//! What is lacking at a misfit: which of several is told, and of what.

use crate::common::*;
use second::Lack::{Count, Kind, Member};
use second::{Lack, Reason, Refusal};

/// Rows: 0 pure empty, 1 resource empty, 2 pure with method 4, 3 resource
/// with methods 4 and 9, 4 the same with a field 2 of row 0 and a field 6 of
/// row 2. Each row has the form of its number; form 4 keeps a 0, a 2 and a 3.
/// 1 types 2 type 3 type 4 type 5 def 6 type 7 def 8 def 9 type 10 var
/// 11 def 12 var 13 def 14 forms 15 form 16 form 17 form 18 body 19 copy
/// 20 form 21 body 22 copy 23 body 24 new 25 form 26 keep 27 keep 28 keep
/// 29 init 30 body 31 get 32 copy 33 init 34 body 35 new 36 copy
/// 37 main 38 new 39 new 40 new 41 new 42 new 43 call
fn desk() -> Vec<u8> {
    sheet(
        "types=5 / type=0,0 / type=1,0 / type=0,1 / def=4,0,0 / type=1,2 / def=4,0,0 / \
         def=9,0,2 / type=1,4 / var=2,0 / def=4,0,0 / var=6,2 / def=9,0,2 / forms=5 / \
         form=0,0 / form=1,0 / form=2,0 / body=1 / copy=1 / \
         form=3,0 / body=1 / copy=1 / body=1 / new=2 / \
         form=4,3 / keep=0 / keep=2 / keep=3 / init=0 / body=2 / get=2 / copy=1 / \
         init=1 / body=2 / new=2 / copy=5 / \
         main=6 / new=0 / new=1 / new=2 / new=3 / new=4,0,2,3 / call=4,4,0",
    )
}

/// The desk with lines exchanged.
fn desk_with(changes: &[(usize, &str)]) -> Vec<u8> {
    let mut text = desk();
    for (place, line) in changes {
        text = with_line(&text, *place, line);
    }
    text
}

/// The line of the misfit and what is lacking after an exchange of lines.
fn changed(changes: &[(usize, &str)]) -> Option<(u32, Lack)> {
    misfit(&desk_with(changes))
}

fn check(cases: &[(usize, &str, Lack)]) {
    for (place, line, lack) in cases {
        let expected = Some((*place as u32, *lack));
        assert_eq!(changed(&[(*place, line)]), expected, "{place}: {line}");
    }
}

#[test]
fn the_desk_is_accepted() {
    assert_eq!(verdict(&desk()), (0, 0));
}

#[test]
fn the_sixth_case_of_the_rules() {
    let text = with_line(CLERK, 19, "new=2,0");
    assert_eq!(misfit(&text), Some((19, Member(1))));
}

#[test]
fn count_comes_before_any_slot() {
    check(&[
        (42, "new=4", Count),
        (42, "new=4,0", Count),
        (42, "new=4,0,2", Count),
        (42, "new=4,0,2,3,0", Count),
        (42, "new=0,0", Count),
        (43, "new=4,0,2,3,3,3,3,3,3", Count),
        // Slots that would misfit, by kind and by member.
        (42, "new=4,1", Count),
        (42, "new=4,1,1,0,0", Count),
        (42, "new=4,0,0", Count),
        (42, "new=4,0,0,0,0", Count),
    ]);
}

#[test]
fn the_first_slot_that_misfits_is_told() {
    check(&[
        (42, "new=4,1,2,3", Kind),
        (42, "new=4,0,0,3", Member(4)),
        // Kind, with member 4 missing too.
        (42, "new=4,0,1,3", Kind),
        // Both members are missing.
        (42, "new=4,0,2,0", Member(4)),
        (42, "new=4,0,2,2", Member(9)),
        // Two or three of them, each with another lack.
        (42, "new=4,0,0,2", Member(4)),
        (42, "new=4,0,1,2", Kind),
        (42, "new=4,0,3,2", Kind),
        (42, "new=4,3,0,2", Kind),
        (42, "new=4,1,1,1", Kind),
    ]);
    // A form that keeps a 3, a 3 and a 0: a name may come before kind.
    let keeps = [(26, "keep=3"), (27, "keep=3"), (28, "keep=0")];
    let inits = [(12, "var=6,0"), (29, "init=2"), (33, "init=2")];
    let lines = |line| [&keeps[..], &inits, &[(42, line)]].concat();
    assert_eq!(verdict(&desk_with(&lines("new=4,3,3,0"))), (0, 0));
    let main = |line| changed(&lines(line));
    assert_eq!(main("new=4,2,0,1"), Some((42, Member(9))));
    assert_eq!(main("new=4,0,2,1"), Some((42, Member(4))));
    assert_eq!(main("new=4,3,2,1"), Some((42, Member(9))));
    assert_eq!(main("new=4,3,3,1"), Some((42, Kind)));
}

#[test]
fn arguments_and_put_values() {
    check(&[
        (43, "call=4,4,1", Kind),
        (43, "call=4,4,3", Kind),
        (43, "call=4,9,4", Kind),
        (31, "put=2,4", Kind),
        (31, "put=2,0", Kind),
        (31, "put=6,2", Member(4)),
        (31, "put=6,0", Kind),
        (31, "put=6,1", Member(4)),
    ]);
    assert_eq!(
        changed(&[(13, "def=9,2,2"), (43, "call=4,9,0")]),
        Some((43, Member(4)))
    );
}

#[test]
fn a_result_is_judged_on_its_last_line() {
    check(&[
        (19, "new=1", Kind),
        (22, "copy=0", Kind),
        (24, "copy=1", Member(4)),
        (24, "new=0", Member(4)),
        (24, "new=3", Kind),
        (32, "copy=4", Kind),
        (36, "copy=2", Member(4)),
        (36, "get=2", Member(4)),
        (36, "copy=4", Kind),
    ]);
    // On an earlier line the same value does no harm.
    assert_eq!(verdict(&desk_with(&[(31, "copy=4")])), (0, 0));
}

#[test]
fn an_instruction_is_judged_before_the_result_of_its_line() {
    check(&[
        // Count, then kind.
        (24, "new=3,1", Count),
        (24, "new=4", Count),
        // A slot's member, then kind.
        (36, "new=4,1,1,3", Member(4)),
        (36, "new=4,1,3,1", Member(4)),
        (36, "new=4,1,3,3", Member(9)),
        // Kind, then a member.
        (36, "put=2,4", Kind),
        (36, "call=0,4,4", Kind),
        // A slot's kind, then kind.
        (36, "new=4,4,3,4", Kind),
        (36, "new=4,1,3,4", Kind),
    ]);
    // An argument's member, then kind; then kind alone.
    let call = |line| changed(&[(11, "def=4,2,1"), (36, line)]);
    assert_eq!(call("call=0,4,1"), Some((36, Member(4))));
    assert_eq!(call("call=0,4,3"), Some((36, Kind)));
    // The same of a put.
    let put = |line| changed(&[(12, "var=6,3"), (33, "init=2"), (36, line)]);
    assert_eq!(put("put=6,2"), Some((36, Member(4))));
    assert_eq!(put("put=6,4"), Some((36, Kind)));
}

#[test]
fn an_init_that_misfits() {
    check(&[
        (29, "init=2", Kind),
        (33, "init=0", Member(4)),
        (33, "init=2", Kind),
    ]);
    assert_eq!(
        changed(&[(12, "var=6,3"), (33, "init=1")]),
        Some((33, Member(9)))
    );
    assert_eq!(
        changed(&[(12, "var=6,3"), (33, "init=0")]),
        Some((33, Member(4)))
    );
}

#[test]
fn a_missing_part_beats_a_misfit() {
    for (place, line) in [
        (43, "call=4,5,1"),
        (36, "put=5,4"),
        (36, "call=4,5,4"),
        (36, "get=4"),
    ] {
        let text = with_line(&desk(), place, line);
        assert_eq!(verdict(&text), (9, place as u32), "{line}");
        assert_eq!(misfit(&text), None);
    }
}

#[test]
fn the_first_line_with_a_misfit_is_told() {
    let both = [(42, "new=4,0,0,3"), (43, "call=4,4,1")];
    assert_eq!(changed(&both), Some((42, Member(4))));
    let both = [(29, "init=2"), (33, "init=0")];
    assert_eq!(changed(&both), Some((29, Kind)));
    let both = [(24, "new=0"), (29, "init=2"), (42, "new=4")];
    assert_eq!(changed(&both), Some((24, Member(4))));
}

/// Run, authority and group are refused as the verdict is.
#[test]
fn every_question_after_typing_carries_the_lack() {
    for (line, lack) in [
        ("new=4", Count),
        ("new=4,1,2,3", Kind),
        ("new=4,0,2,2", Member(9)),
    ] {
        let text = with_line(&desk(), 42, line);
        let refusal = Refusal::at(Reason::Misfit(lack), 42);
        assert_eq!((refusal.number(), refusal.lack()), (10, Some(lack)));
        assert_eq!(second::verdict(&text), Err(refusal));
        assert_eq!(second::run(&text, 8), Err(refusal));
        assert_eq!(second::authority(&text, 8, 256), Err(refusal));
        assert_eq!(second::authority(&text, 8, 257), Err(refusal));
        assert_eq!(second::group(&text, 8, &[256]), Err(refusal));
        assert_eq!(second::group(&text, 8, &[]), Err(refusal));
        // Fit and form stop after reading, and the print has no third line.
        assert!(second::fit(&text, 0, 0).is_ok() && second::form(&text, 0).is_ok());
        assert_eq!(second::print(&text), "verdict=10\nline=42\n");
        assert_eq!(second::refusal_lines(refusal), second::print(&text));
    }
}

#[test]
fn only_misfits_lack_something() {
    let reasons = [
        Reason::LongSheet,
        Reason::TornLine,
        Reason::OverMeasure,
        Reason::WrongOrder,
        Reason::Twin,
        Reason::LooseEnd,
        Reason::MixedPure,
        Reason::NoSuchPart,
        Reason::Misfit(Count),
        Reason::NoHolder,
    ];
    for (number, reason) in (2..).zip(reasons) {
        let refusal = Refusal::at(reason, 7);
        assert_eq!(refusal.number(), number);
        assert_eq!(refusal.lack().is_some(), number == 10);
        let two = format!("verdict={number}\nline=7\n");
        let more = if number == 10 { "lack=1\n" } else { "" };
        assert_eq!(second::refusal_lines(refusal), two);
        assert_eq!(second::question_lines(refusal), two + more);
    }
}
