//! Main's holdings by rules for devices that are wrong in one point: each
//! gives another set for some sheet.

use crate::device_rules::texts;
use second::machine::Machine;
use second::MAIN;
use std::collections::BTreeSet;

/// What main holds of the filled slots that are chosen.
fn held(machine: &Machine, chosen: impl Fn(usize) -> bool) -> BTreeSet<u16> {
    let slots = machine.frame_slots(0).iter().enumerate();
    let chosen = slots.filter(|(slot, _)| chosen(*slot));
    let all = chosen.map(|(_, object)| *object);
    all.filter(|object| second::authority::is_resource(machine, *object))
        .collect()
}

/// Main's set while main is alone on the stack: the right one, then wrong
/// ones by the first device alone, by every device, by the last device's
/// slot, and by a last slot counted without devices.
fn sets(machine: &Machine) -> [BTreeSet<u16>; 5] {
    let main = &machine.frames[0];
    let (devices, lines) = (machine.sheet.devices.len(), machine.sheet.main.len());
    let named = |slot: usize| {
        let mut left = main.left().iter();
        left.any(|placed| placed.instruction.names(slot as u16))
    };
    let right = |slot: usize| named(slot) || slot == devices + lines - 1;
    [
        held(machine, right),
        held(machine, |slot| right(slot) && !(1..devices).contains(&slot)),
        held(machine, |slot| right(slot) || slot < devices),
        held(machine, |slot| right(slot) || slot + 1 == devices),
        held(machine, |slot| named(slot) || slot == lines - 1),
    ]
}

#[test]
fn wrong_holdings_are_told_apart() {
    let mut counts = [0; 5];
    for text in texts(52, 200) {
        let (Ok(()), Ok(sheet)) = (second::verdict(&text), second::read(&text)) else {
            continue;
        };
        let mut machine = Machine::start(&sheet);
        let mut differ = [false; 5];
        for budget in [0, 1, 2, 5, 3_000] {
            machine.run(budget);
            if machine.frames.len() > 1 {
                continue;
            }
            let main = second::authority::authority_of(&machine, MAIN.into());
            let main = BTreeSet::from_iter(main.expect("main is a holder"));
            for (differ, set) in differ.iter_mut().zip(sets(&machine)) {
                *differ |= set != main;
            }
        }
        for (count, differ) in counts.iter_mut().zip(differ) {
            *count += u32::from(differ);
        }
    }
    let [right, wrong @ ..] = counts;
    assert_eq!(right, 0);
    assert!(wrong.iter().all(|count| *count >= 10), "{wrong:?}");
}
