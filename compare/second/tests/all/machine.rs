//! The bounded run: its outcomes at the edges of store, stack and budget.

use crate::common::*;
use second::{Outcome, NO_VALUE};

/// One method that makes `made` objects, called `calls` times by main,
/// which then makes `more` itself.
fn makers(made: usize, calls: usize, more: usize) -> Vec<u8> {
    let head = "types=2\ntype=0,0\ntype=1,1\ndef=0,0,0\nforms=2\nform=0,0\nform=1,0\n";
    let body = format!("body={made}\n{}", "new=0\n".repeat(made));
    let main = format!("main={}\nnew=0\nnew=1\n", 2 + calls + more);
    let code = "call=1,0,0\n".repeat(calls) + &"new=0\n".repeat(more);
    (String::from(head) + &body + &main + &code).into_bytes()
}

#[test]
fn the_store_has_256_places() {
    let exact = makers(31, 8, 6);
    assert_eq!(run(&exact, 272), (Outcome::Done, 272, 255, 256));
    assert_eq!(run(&exact, 271), (Outcome::Spent, 271, NO_VALUE, 255));
    let one_more = makers(31, 8, 7);
    assert_eq!(run(&one_more, 272), (Outcome::Spent, 272, NO_VALUE, 256));
    for budget in [273, 10_000, u32::MAX] {
        let answer = (Outcome::StoreFull, 272, NO_VALUE, 256);
        assert_eq!(run(&one_more, budget), answer);
    }
}

#[test]
fn a_full_store_inside_a_call() {
    let text = makers(32, 8, 0);
    assert_eq!(run(&text, 271), (Outcome::Spent, 271, NO_VALUE, 256));
    assert_eq!(run(&text, 272), (Outcome::StoreFull, 271, NO_VALUE, 256));
}

/// Forms 1 to 63, each of which makes the next and calls it; the last one's
/// body is given.
fn chain(last: &str) -> Vec<u8> {
    let mut text = String::from("types=2\ntype=0,0\ntype=1,1\ndef=0,0,0\nforms=64\nform=0,0\n");
    for form in 1..63 {
        text += &format!("form=1,0\nbody=2\nnew={}\ncall=2,0,1\n", form + 1);
    }
    text += &format!("form=1,0\nbody=1\n{last}\n");
    text += "main=3\nnew=0\nnew=1\ncall=1,0,0\n";
    text.into_bytes()
}

#[test]
fn the_stack_has_64_frames() {
    let exact = chain("copy=1");
    assert_eq!(run(&exact, u32::MAX), (Outcome::Done, 191, 0, 64));
    let one_more = chain("call=0,0,1");
    assert_eq!(run(&one_more, 127), (Outcome::Spent, 127, NO_VALUE, 64));
    assert_eq!(run(&one_more, 128), (Outcome::StackFull, 127, NO_VALUE, 64));
    // A full stack stops calls only.
    let make = chain("new=0");
    assert_eq!(run(&make, 191), (Outcome::Done, 191, 64, 65));
}

#[test]
fn each_budget_is_used_up_first() {
    for budget in 0..8 {
        let (outcome, steps, value, objects) = run(CLERK, budget);
        assert_eq!((outcome, steps), (Outcome::Spent, budget));
        assert_eq!((value, objects), (NO_VALUE, budget.min(3) as u16));
    }
}

#[test]
fn fields_start_as_kept_values_and_can_be_set() {
    let lines = "types=2 / type=0,0 / type=1,3 / var=1,0 / def=2,0,0 / def=3,0,0 / forms=2 / \
         form=0,0 / form=1,2 / keep=0 / keep=0 / init=1 / body=1 / put=1,1 / body=1 / get=1";
    let main = |calls: &str, count: usize| {
        let text = format!("{lines} / main={count} / new=0 / new=0 / new=0 / new=1,0,1 / {calls}");
        run(&sheet(&text), 100)
    };
    let read = "call=3,3,0";
    let set = "call=3,2,2";
    assert_eq!(main(read, 5), (Outcome::Done, 7, 1, 4));
    let set_and_read = format!("{set} / {read}");
    assert_eq!(main(&set_and_read, 6), (Outcome::Done, 10, 2, 4));
    assert_eq!(main(set, 5), (Outcome::Done, 7, 2, 4));
}

#[test]
fn the_object_decides_which_body_is_called() {
    // Two forms of one row; the second one's objects answer with themselves.
    let text = |called: u16| {
        sheet(&format!(
            "types=2 / type=1,0 / type=1,1 / def=5,0,0 / forms=2 / form=1,0 / body=1 / copy=1 / \
             form=1,0 / body=1 / copy=0 / main=3 / new=0 / new=1 / call={called},5,0"
        ))
    };
    assert_eq!(run(&text(0), 9), (Outcome::Done, 5, 0, 2));
    assert_eq!(run(&text(1), 9), (Outcome::Done, 5, 1, 2));
}

/// Twenty forms, each calling the next twice: over a million calls.
fn tree() -> Vec<u8> {
    let mut text = String::from("types=2\ntype=0,0\ntype=1,1\ndef=0,0,0\nforms=21\nform=0,0\n");
    text += "form=1,0\nbody=1\ncopy=1\n";
    for _ in 0..19 {
        text += "form=1,1\nkeep=1\nbody=2\ncall=2,0,1\ncall=2,0,1\n";
    }
    text += "main=22\nnew=0\nnew=1\n";
    for form in 2..21 {
        text += &format!("new={form},{}\n", form - 1);
    }
    text += "call=20,0,0\n";
    text.into_bytes()
}

#[test]
fn a_long_run() {
    // 21 creations; 2^20 - 1 calls with their returns; 2^19 copies.
    let all = 21 + 2 * ((1 << 20) - 1) + (1 << 19);
    assert_eq!(run(&tree(), u32::MAX), (Outcome::Done, all, 0, 21));
    assert_eq!(run(&tree(), all), (Outcome::Done, all, 0, 21));
    assert_eq!(
        run(&tree(), all - 1),
        (Outcome::Spent, all - 1, NO_VALUE, 21)
    );
}
