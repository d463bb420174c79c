//! The question about a list of holders at the edges of its buffers, of the
//! list and of the store.

use crate::authority_edges::maker;
use crate::common::{CLERK, MAKERS};
use crate::held;
use boundary::{group, AUTHORITY, GROUP, WORK};

const MAIN: u16 = 256;

/// The answer is this refusal and line, or zeros and these numbers.
fn check(text: &[u8], budget: u32, list: &[u16], refused: (u32, u32), numbers: &[u16]) {
    let name = format!("budget {budget}, {} listed", list.len());
    held::check(&name, refused, numbers, |work, result| {
        group(text, budget, list, work, result)
    });
}

fn holds(text: &[u8], budget: u32, list: &[u16], held: &[u16]) {
    check(text, budget, list, (0, 0), held);
}

fn no_holder(text: &[u8], budget: u32, list: &[u16]) {
    check(text, budget, list, (11, 0), &[]);
}

/// The empty list, which every accepted sheet answers, and four lists that
/// none does.
fn lists() -> [Vec<u16>; 5] {
    [
        vec![],
        vec![257],
        vec![MAIN; GROUP + 1],
        vec![65_535; GROUP + 2],
        vec![MAIN; 100_000],
    ]
}

#[test]
fn a_short_buffer_is_refused_first_whatever_is_listed() {
    let short = [
        (WORK - 1, AUTHORITY),
        (WORK, AUTHORITY - 1),
        (WORK - 1, AUTHORITY - 1),
        (WORK + 5, 0),
        (0, AUTHORITY + 9),
        (0, 0),
    ];
    for lengths in short {
        for text in [b"", CLERK, MAKERS] {
            for list in lists() {
                held::is_short(lengths, |work, result| group(text, 8, &list, work, result));
            }
        }
    }
}

#[test]
fn the_text_s_refusal_comes_before_the_list_s() {
    let long = vec![b'x'; 65_536];
    let unfinished = &CLERK[..CLERK.len() - 1];
    for list in lists() {
        check(&long, 8, &list, (2, 0), &[]);
        check(b"", 8, &list, (3, 1), &[]);
        check(unfinished, 8, &list, (3, 20), &[]);
    }
    for list in &lists()[1..] {
        no_holder(CLERK, 8, list);
        no_holder(CLERK, 0, list);
    }
}

#[test]
fn the_two_makers_joined() {
    for budget in [14, 15, u32::MAX] {
        holds(MAKERS, budget, &[2, 3], &[2, 3, 4, 5]);
        holds(MAKERS, budget, &[3, 2], &[2, 3, 4, 5]);
        holds(MAKERS, budget, &[2, 2, 3, 2], &[2, 3, 4, 5]);
        holds(MAKERS, budget, &[2], &[2, 4]);
        holds(MAKERS, budget, &[3, 1], &[1, 3, 5]);
        holds(MAKERS, budget, &[5, 4], &[4, 5]);
        holds(MAKERS, budget, &[MAIN, 5], &[5]);
        holds(MAKERS, budget, &[], &[]);
    }
    // Before their calls both have the valve in their field.
    holds(MAKERS, 4, &[2, 3], &[1, 2, 3]);
    // The second maker's device is made by the eleventh step.
    no_holder(MAKERS, 10, &[2, 5]);
    holds(MAKERS, 11, &[2, 5], &[2, 4, 5]);
}

#[test]
fn one_number_that_is_no_holder_is_enough() {
    for stranger in [0, 6, 255, 257, 258, 65_535] {
        for place in 0..3 {
            let mut list = vec![MAIN, 2, 3];
            list[place] = stranger;
            no_holder(MAKERS, 100, &list);
        }
        // The last of sixteen.
        let mut list = [2; GROUP];
        holds(MAKERS, 100, &list, &[2, 4]);
        list[GROUP - 1] = stranger;
        no_holder(MAKERS, 100, &list);
    }
}

/// Object 0 makes resources until the store is full.
#[test]
fn sixteen_holders_in_a_full_store() {
    let text = maker(3);
    let last: Vec<u16> = (240..256).collect();
    holds(&text, u32::MAX, &last, &last);
    let every: Vec<u16> = (0..256).collect();
    holds(&text, u32::MAX, &[255, 0], &every);
    holds(&text, u32::MAX, &[MAIN; 16], &[]);
    let more: Vec<u16> = (239..256).collect();
    no_holder(&text, u32::MAX, &more);
}
