//! The run at the edges of budget, store and stack, with the answers that the
//! paper gives.

use crate::common::{is_left_clean, noise, CLERK, LOOP};
use crate::refused::{run_of, NONE};
use boundary::{run, RunResult, WORK};

const DONE: u32 = 0;
const SPENT: u32 = 1;
const STORE_FULL: u32 = 2;
const STACK_FULL: u32 = 3;
const NO_VALUE: u32 = 65_535;

/// The answer is this outcome, step count, value and number of objects.
fn check(text: &[u8], budget: u32, (outcome, steps, value, objects): (u32, u32, u32, u32)) {
    let name = format!("budget {budget}");
    let entry = noise(budget.into(), WORK + 5);
    let mut work = entry.clone();
    let wanted = RunResult {
        outcome,
        steps,
        value,
        objects,
        ..run_of(NONE)
    };
    assert_eq!(run(text, budget, &mut work), wanted, "{name}");
    is_left_clean(&work, &entry, &name);
}

#[test]
fn the_clerk_at_the_paper_s_budgets() {
    check(CLERK, 0, (SPENT, 0, NO_VALUE, 0));
    check(CLERK, 2, (SPENT, 2, NO_VALUE, 2));
    check(CLERK, 7, (SPENT, 7, NO_VALUE, 3));
    for budget in [8, 9, 65, 66, 10_000, u32::MAX] {
        check(CLERK, budget, (DONE, 8, 0, 3));
    }
}

#[test]
fn the_loop_at_the_paper_s_budgets() {
    check(LOOP, 2, (SPENT, 2, NO_VALUE, 2));
    check(LOOP, 7, (SPENT, 7, NO_VALUE, 2));
    check(LOOP, 8, (SPENT, 8, NO_VALUE, 2));
    check(LOOP, 65, (SPENT, 65, NO_VALUE, 2));
    for budget in [66, 67, 10_000, u32::MAX] {
        check(LOOP, budget, (STACK_FULL, 65, NO_VALUE, 2));
    }
}

/// One method that makes `made` objects, called `calls` times by main, which
/// then makes `more` itself.
fn makers(made: usize, calls: usize, more: usize) -> Vec<u8> {
    let head = "types=2\ntype=0,0\ntype=1,1\ndef=0,0,0\nforms=2\nform=0,0\nform=1,0\n";
    let body = format!("body={made}\n{}", "new=0\n".repeat(made));
    let main = format!("main={}\nnew=0\nnew=1\n", 2 + calls + more);
    let code = "call=1,0,0\n".repeat(calls) + &"new=0\n".repeat(more);
    (String::from(head) + &body + &main + &code).into_bytes()
}

#[test]
fn the_store_has_exactly_256_places() {
    let exact = makers(31, 8, 6);
    check(&exact, 271, (SPENT, 271, NO_VALUE, 255));
    // A finished run has not run out of its budget.
    check(&exact, 272, (DONE, 272, 255, 256));
    let one_more = makers(31, 8, 7);
    // The budget is asked for before the store.
    check(&one_more, 272, (SPENT, 272, NO_VALUE, 256));
    for budget in [273, 274, u32::MAX] {
        check(&one_more, budget, (STORE_FULL, 272, NO_VALUE, 256));
    }
}

#[test]
fn a_store_is_full_inside_a_call_as_well() {
    let text = makers(32, 8, 0);
    check(&text, 270, (SPENT, 270, NO_VALUE, 255));
    check(&text, 271, (SPENT, 271, NO_VALUE, 256));
    check(&text, 272, (STORE_FULL, 271, NO_VALUE, 256));
}

/// Forms 1 to 63, each of which makes the next and calls it; the last one's
/// body is given.
fn chain(last: &str) -> Vec<u8> {
    let mut text = String::from("types=2\ntype=0,0\ntype=1,1\ndef=0,0,0\nforms=64\nform=0,0\n");
    for next in 2..64 {
        text += &format!("form=1,0\nbody=2\nnew={next}\ncall=2,0,1\n");
    }
    text += &format!("form=1,0\nbody=1\n{last}\nmain=3\nnew=0\nnew=1\ncall=1,0,0\n");
    text.into_bytes()
}

#[test]
fn the_stack_has_exactly_64_frames() {
    let exact = chain("copy=1");
    check(&exact, 190, (SPENT, 190, NO_VALUE, 64));
    check(&exact, 191, (DONE, 191, 0, 64));
    let one_more = chain("call=0,0,1");
    check(&one_more, 127, (SPENT, 127, NO_VALUE, 64));
    for budget in [128, 129, u32::MAX] {
        check(&one_more, budget, (STACK_FULL, 127, NO_VALUE, 64));
    }
    // A full stack stops calls only.
    check(&chain("new=0"), 191, (DONE, 191, 64, 65));
}

/// Both are full: 63 forms make 256 objects on their way down.
#[test]
fn a_full_store_and_a_full_stack_stop_their_own_steps() {
    let full = |last: &str| {
        let mut text = String::from("types=2\ntype=0,0\ntype=1,1\ndef=0,0,0\nforms=64\nform=0,0\n");
        for next in 2..64 {
            text += &format!("form=1,0\nbody=5\nnew={next}\n{}", "new=0\n".repeat(3));
            text += "call=2,0,1\n";
        }
        text += "form=1,0\nbody=7\n";
        text += &"new=0\n".repeat(6);
        text += &format!("{last}\nmain=3\nnew=0\nnew=1\ncall=1,0,0\n");
        text.into_bytes()
    };
    // 2 and 62 times 4 and 6 objects; 63 calls.
    for last in ["new=0", "call=0,0,1"] {
        check(&full(last), 319, (SPENT, 319, NO_VALUE, 256));
    }
    check(&full("new=0"), 320, (STORE_FULL, 319, NO_VALUE, 256));
    check(&full("call=0,0,1"), 320, (STACK_FULL, 319, NO_VALUE, 256));
    check(&full("copy=1"), 400, (DONE, 383, 0, 256));
}

/// Twenty forms, each calling the next twice: over a million calls.
#[test]
fn a_long_run_at_the_largest_budget() {
    let mut text = String::from("types=2\ntype=0,0\ntype=1,1\ndef=0,0,0\nforms=21\nform=0,0\n");
    text += "form=1,0\nbody=1\ncopy=1\n";
    text += &"form=1,1\nkeep=1\nbody=2\ncall=2,0,1\ncall=2,0,1\n".repeat(19);
    text += "main=22\nnew=0\nnew=1\n";
    for form in 2..21 {
        text += &format!("new={form},{}\n", form - 1);
    }
    text += "call=20,0,0\n";
    // 21 creations; 2^20 - 1 calls with their returns; 2^19 copies.
    let all = 21 + 2 * ((1 << 20) - 1) + (1 << 19);
    for budget in [all, all + 1, u32::MAX] {
        check(text.as_bytes(), budget, (DONE, all, 0, 21));
    }
    check(text.as_bytes(), all - 1, (SPENT, all - 1, NO_VALUE, 21));
}
