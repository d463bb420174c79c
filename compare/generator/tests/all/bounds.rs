//! The question for the most steps: its edges, and what every answer obeys.

use crate::common::{against, bound};
use generator::bounds::{amount, LIMIT};
use generator::{bound_edges, device, mill, sheet, strict};
use second::Outcome;
use std::collections::BTreeSet;

#[test]
fn the_edges_are_as_the_rules_say() {
    for (number, (text, answer)) in bound_edges().into_iter().enumerate() {
        let head = String::from_utf8_lossy(&text[..text.len().min(300)]).into_owned();
        assert_eq!(bound(&text), answer, "edge {number}:\n{head}");
    }
}

#[test]
fn the_edges_are_on_both_sides() {
    let edges = bound_edges();
    let answers: BTreeSet<_> = edges.iter().map(|(_, answer)| *answer).collect();
    for steps in [4_294_967_294, 4_294_967_295] {
        assert!(answers.contains(&Ok(steps)), "{steps}");
    }
    let amounts = edges
        .iter()
        .filter_map(|(text, _)| amount(&second::read(text).ok()?))
        .collect::<BTreeSet<u128>>();
    for over in [LIMIT + 1, LIMIT + 2, LIMIT + 5, (1 << 64) + 7, u128::MAX] {
        assert!(amounts.contains(&over), "{over}");
    }
    let texts: BTreeSet<_> = edges.iter().map(|(text, _)| text).collect();
    assert_eq!(texts.len(), edges.len());
}

/// A strict chain through all names fills the stack; one that is shorter is
/// done with its amount and not before. A store fills as well.
#[test]
fn edges_that_run() {
    let mut outcomes = [0; 4];
    for (text, answer) in bound_edges() {
        let Ok(steps @ ..=1_000) = answer else {
            continue;
        };
        let run = second::run(&text, steps).expect("an accepted sheet");
        outcomes[run.outcome as usize] += 1;
        assert_eq!(second::run(&text, u32::MAX), Ok(run));
        if run.steps == steps {
            let less = second::run(&text, steps - 1).expect("an accepted sheet");
            assert_eq!((run.outcome, less.outcome), (Outcome::Done, Outcome::Spent));
        }
    }
    let [done, spent, store, stack] = outcomes;
    assert!(done > 10 && spent == 0, "{outcomes:?}");
    assert_eq!((store, stack), (1, 1));
}

/// What the rules say of a text, found line by line and with wide numbers.
fn expected(text: &[u8]) -> Result<u32, (u32, u32)> {
    if let Err(refusal) = second::verdict(text) {
        return Err((refusal.number(), refusal.line));
    }
    let sheet = second::read(text).expect("an accepted sheet");
    let amount = amount(&sheet);
    match against(text).first() {
        Some(call) => {
            assert_eq!(amount, None);
            Err((12, call.line))
        }
        None => {
            let amount = amount.expect("a strict sheet");
            u32::try_from(amount).map_err(|_| (13, 0))
        }
    }
}

#[test]
fn every_sheet_has_the_answer_of_the_rules() {
    let mut seen = [0; 15];
    for index in 0..700 {
        let texts = [sheet, mill, strict, device].map(|make| make(21, index));
        for text in texts {
            let answer = bound(&text);
            assert_eq!(answer, expected(&text), "index {index}");
            seen[answer.map_or_else(|refusal| refusal.0 as usize, |_| 0)] += 1;
        }
    }
    for number in [0, 9, 10, 12, 13] {
        assert!(seen[number] > 30, "answer {number}: {seen:?}");
    }
    assert!(seen[14] > 10, "{seen:?}");
}

/// Runs with the amount end, in every way but one.
#[test]
fn a_run_with_the_amount_is_not_spent() {
    let (mut outcomes, mut exact, mut less) = ([0; 4], 0, 0);
    for index in 0..700 {
        for text in [sheet(22, index), strict(22, index)] {
            let Ok(steps @ ..=200_000) = bound(&text) else {
                continue;
            };
            let run = second::run(&text, steps).expect("an accepted sheet");
            assert_ne!(run.outcome, Outcome::Spent, "index {index}");
            outcomes[run.outcome as usize] += 1;
            assert_eq!(second::run(&text, u32::MAX), Ok(run));
            if run.steps < steps {
                less += 1;
                continue;
            }
            assert_eq!(run.outcome, Outcome::Done);
            exact += 1;
            let short = second::run(&text, steps - 1).expect("an accepted sheet");
            assert_eq!(short.outcome, Outcome::Spent, "index {index}");
        }
    }
    let [done, _, store, stack] = outcomes;
    assert!(done > 200 && store > 20 && stack > 5, "{outcomes:?}");
    assert!(exact > 100 && less > 100, "{exact} exact, {less} less");
}
