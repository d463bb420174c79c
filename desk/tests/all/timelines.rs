//! A timeline's gains and losses lead from the first sets to the library's
//! last, and each gain is one of the paper's three.

use desk::commands::timeline_shown;
use desk::library::Library;
use desk::line::lines;
use desk::reader::read;
use desk::timeline::{timeline, Gain, Sets, Timeline, Way};
use second::machine::Machine;
use second::sheet::Instruction;
use std::collections::{BTreeMap, BTreeSet};

type Held = BTreeMap<u16, BTreeSet<u16>>;

fn held(sets: &Sets) -> Held {
    let sets = sets.iter();
    sets.map(|(holder, held)| (*holder, held.iter().copied().collect()))
        .collect()
}

/// Every holder's set, by the library.
fn reported(library: &mut Library, text: &[u8], budget: u32) -> Held {
    let (_, entries) = library.report(text, budget).expect("an accepted sheet");
    entries
        .map(|(holder, held)| (holder, held.iter().copied().collect()))
        .collect()
}

/// The step before which the second program stands.
enum Next {
    Creation { made: u16 },
    Call,
    Return,
    Other,
}

fn next(machine: &Machine) -> Next {
    match machine.next().map(|placed| &placed.instruction) {
        Some(Instruction::New { .. }) => Next::Creation {
            made: machine.objects.len() as u16,
        },
        Some(Instruction::Call { .. }) => Next::Call,
        Some(_) => Next::Other,
        None => Next::Return,
    }
}

/// Whether the step, and the sets before it, are as the paper's rule for this
/// gain asks.
fn is_allowed(gain: &Gain, next: &Next, before: &Held) -> bool {
    let (holder, resource) = (gain.holder, gain.resource);
    let held_by = |who: u16| {
        before
            .get(&who)
            .is_some_and(|held| held.contains(&resource))
    };
    match (gain.way, next) {
        (Some(Way::Created), Next::Creation { made }) => {
            resource == *made && before.contains_key(&holder)
        }
        (Some(Way::WasCreated), Next::Creation { made }) => resource == *made && holder == *made,
        (Some(Way::CreatedWith(by)), Next::Creation { made }) => holder == *made && held_by(by),
        (Some(Way::Called(by)), Next::Call) => held_by(by),
        (Some(Way::Returned(by)), Next::Return) => by != holder && held_by(by),
        _ => false,
    }
}

/// Walks along a timeline; counts how many gains it has of each way.
fn walk(library: &mut Library, text: &[u8], timeline: &Timeline, counts: &mut [u32; 5]) {
    let sheet = second::read(text).expect("an accepted sheet");
    let mut machine = Machine::start(&sheet);
    let mut now = held(&timeline.start);
    for change in &timeline.changes {
        machine.run(change.number - 1);
        let next = next(&machine);
        assert_eq!(now, reported(library, text, change.number - 1));
        for gain in &change.gains {
            let step = change.number;
            assert!(is_allowed(gain, &next, &now), "step {step}: {gain:?}");
            counts[match gain.way {
                Some(Way::Created) => 0,
                Some(Way::WasCreated) => 1,
                Some(Way::CreatedWith(_)) => 2,
                Some(Way::Called(_)) => 3,
                _ => 4,
            }] += 1;
        }
        for (holder, resource) in &change.losses {
            assert!(now.get_mut(holder).expect("a holder").remove(resource));
        }
        for gain in &change.gains {
            assert!(now.entry(gain.holder).or_default().insert(gain.resource));
        }
    }
    let last = reported(library, text, timeline.run.steps);
    assert_eq!(now, last);
    assert_eq!(held(&timeline.end), last);
}

/// A holder as it is printed.
fn holder(words: &str) -> u16 {
    match words.strip_prefix("object ") {
        Some(number) => number.parse().expect("a number"),
        None => {
            assert_eq!(words, "main");
            256
        }
    }
}

/// The sets that printed lines end with.
fn printed_end(printed: &str) -> Held {
    let (_, end) = printed.split_once("\nat the end:\n").expect("the end");
    let lines = end.lines().map(|line| {
        let (who, held) = line.trim_start().split_once(" holds ").expect("a set");
        let held = held.split(", ").filter(|held| *held != "nothing");
        let held = held.map(|object| object.parse().expect("a number"));
        (holder(who), held.collect())
    });
    lines.collect()
}

/// The sets that the printed gains and losses lead to, from the first ones. Each
/// gain names its way.
fn printed_walk(printed: &str, start: Held) -> Held {
    let ways = [
        "created it",
        "was created",
        "was created with it by ",
        "was called with it by ",
        "was returned it by ",
    ];
    let mut now = start;
    for line in printed.lines() {
        if let Some((who, got)) = line
            .strip_prefix("  + ")
            .and_then(|l| l.split_once(" gets "))
        {
            let (resource, way) = got.split_once(": ").expect("a way");
            let by = |way: &str, known: &str| known.ends_with("by ") && way.starts_with(known);
            assert!(
                ways.iter().any(|known| way == *known || by(way, known)),
                "{line}"
            );
            let resource = resource.parse().expect("a number");
            assert!(
                now.entry(holder(who)).or_default().insert(resource),
                "{line}"
            );
        }
        if let Some(lost) = line.strip_prefix("  - ") {
            let (who, resource) = lost.split_once(" is done with ").expect("a loss");
            let held = now.get_mut(&holder(who)).expect("a holder");
            assert!(held.remove(&resource.parse().expect("a number")), "{line}");
        }
    }
    now
}

#[test]
fn a_timeline_s_last_sets_are_the_report_s_and_each_gain_is_one_of_three() {
    let mut library = Library::new();
    let (mut seen, mut index) = (0, 0);
    let mut counts = [0; 5];
    while seen < 1_000 {
        let text = match index % 4 {
            0 => generator::device(11, index),
            1 | 2 => generator::idle(11, index),
            _ => generator::sheet(11, index),
        };
        index += 1;
        let budget = 20 + (index % 5 * 20) as u32;
        if let Ok(timeline) = timeline(&mut library, &text, budget) {
            walk(&mut library, &text, &timeline, &mut counts);
            let printed = timeline_shown(&timeline, &read(&lines(&text)));
            let end = printed_end(&printed);
            assert_eq!(end, held(&timeline.end));
            assert_eq!(printed_walk(&printed, held(&timeline.start)), end);
            seen += 1;
        }
    }
    assert!(counts.iter().all(|count| *count > 100), "{counts:?}");
}
