//! Idle sheets: well typed, of every size, and with the runs that they are
//! made for.

use generator::idle;
use generator::usable::{Usable, THINGS};
use second::authority::is_resource;
use second::machine::Machine;
use second::sheet::{Form, Instruction, Part, Placed};
use second::Sheet;

fn sheets(seed: u64, count: u64) -> impl Iterator<Item = Sheet> {
    (0..count).map(move |index| {
        let text = idle(seed, index);
        assert_eq!(second::verdict(&text), Ok(()), "index {index}");
        second::read(&text).expect("an accepted sheet")
    })
}

#[test]
fn the_seed_and_the_index_decide_an_idle_sheet() {
    assert_eq!(idle(5, 6), idle(5, 6));
    assert_ne!(idle(5, 6), idle(5, 7));
    assert_ne!(idle(5, 6), idle(6, 6));
}

#[test]
fn everything_for_the_authority_question_is_common() {
    let mut usable = Usable::default();
    for sheet in sheets(31, 400) {
        usable.add(&sheet);
    }
    assert_eq!(usable.missing(), Vec::<String>::new());
    for (name, count) in THINGS.iter().zip(usable.counts) {
        assert!(count > 20, "{name}: {count} of 400");
    }
}

/// The bodies of a form.
fn bodies(form: &Form) -> Vec<&[Placed]> {
    let bodies = form.parts.iter().filter_map(|part| match part {
        Part::Body(code) => Some(&code[..]),
        Part::Init { .. } => None,
    });
    bodies.collect()
}

#[test]
fn forms_and_bodies_are_of_every_size() {
    let (mut keeps, mut methods, mut lines, mut puts) = ([0; 9], [0; 9], [0; 33], 0);
    let (mut some, mut none) = (0, 0);
    for sheet in sheets(32, 400) {
        for form in &sheet.forms {
            let bodies = bodies(form);
            keeps[form.keeps.len()] += 1;
            methods[bodies.len()] += 1;
            for placed in bodies.iter().copied().flatten() {
                let from_argument = matches!(placed.instruction, Instruction::Put { slot: 1, .. });
                puts += u32::from(from_argument);
            }
            for code in &bodies {
                lines[code.len()] += 1;
            }
            let names = |slot: u16| {
                let mut all = bodies.iter().copied().flatten();
                all.any(|placed| placed.instruction.names(slot))
            };
            let kept = 2..2 + form.keeps.len() as u16;
            let named = kept.filter(|slot| names(*slot)).count();
            some += u32::from(named > 0 && named < form.keeps.len());
            none += u32::from(named == 0 && !form.keeps.is_empty());
        }
    }
    assert!(keeps.iter().all(|count| *count > 100), "{keeps:?}");
    assert!(methods[..6].iter().all(|count| *count > 20), "{methods:?}");
    assert!(lines[1..].iter().all(|count| *count > 10), "{lines:?}");
    assert!(puts > 500, "{puts} arguments go into fields");
    assert!(some > 500 && none > 500, "{some}, {none} forms");
}

/// The most frames of resource receivers, and of pure ones, that a state
/// among the first has.
fn depths(sheet: &Sheet) -> [usize; 2] {
    let mut machine = Machine::start(sheet);
    let mut depths = [0; 2];
    for budget in 1..=200 {
        machine.run(budget);
        let receivers = machine.frames.iter().filter_map(|frame| frame.receiver);
        let of = receivers.map(|receiver| is_resource(&machine, receiver));
        let of: Vec<bool> = of.collect();
        let resources = of.iter().filter(|resource| **resource).count();
        depths[0] = depths[0].max(resources);
        depths[1] = depths[1].max(of.len() - resources);
    }
    depths
}

#[test]
fn calls_are_nested_and_runs_end_in_every_way() {
    let (mut outcomes, mut nested, mut long) = ([0; 4], [0; 2], 0);
    for sheet in sheets(33, 400) {
        let run = Machine::start(&sheet).run(100_000);
        outcomes[run.outcome as usize] += 1;
        long += u32::from(run.steps > 200);
        for (count, depth) in nested.iter_mut().zip(depths(&sheet)) {
            *count += u32::from(depth > 1);
        }
    }
    let [done, _, store, stack] = outcomes;
    assert!(done > 200 && store > 20 && stack > 20, "{outcomes:?}");
    assert!(nested.iter().all(|count| *count > 60), "{nested:?}");
    assert!(long > 60, "{long} of 400 are long");
}
