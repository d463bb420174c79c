//! Mills: well typed, and with the runs that they are made for.

use generator::mill;
use second::machine::Machine;
use second::sheet::Instruction;
use second::Sheet;

/// How many of the first steps read or set a field, and by how many kept
/// values the receivers of calls are counted.
fn look(sheet: &Sheet, steps: u32, called: &mut [u32; 9]) -> u32 {
    let mut machine = Machine::start(sheet);
    let mut fields = 0;
    for budget in 1..=steps {
        let next = machine.next().map(|placed| &placed.instruction);
        let is_field = matches!(
            next,
            Some(Instruction::Get { .. } | Instruction::Put { .. })
        );
        fields += u32::from(is_field);
        let frames = machine.frames.len();
        machine.run(budget);
        if machine.frames.len() > frames {
            if let Some(own) = machine.frames[frames].receiver {
                called[machine.objects[usize::from(own)].kept.len()] += 1;
            }
        }
    }
    fields
}

#[test]
fn mills_run_long_and_use_their_fields() {
    let (mut outcomes, mut called) = ([0; 4], [0; 9]);
    let (mut long, mut fields) = (0, 0);
    for index in 0..1_000 {
        let text = mill(5, index);
        let run = second::run(&text, 100_000).expect("a mill is well typed");
        outcomes[run.outcome as usize] += 1;
        long += u32::from(run.steps >= 1_000);
        let sheet = second::read(&text).expect("a mill can be read");
        fields += look(&sheet, run.steps.min(300), &mut called);
    }
    assert!(outcomes.iter().all(|count| *count > 0), "{outcomes:?}");
    assert!(called.iter().all(|count| *count > 100), "{called:?}");
    assert!(long > 200, "{long} of 1000 are long");
    assert!(fields > 20_000, "{fields} times a field");
}

#[test]
fn the_seed_and_the_index_decide_a_mill() {
    assert_eq!(mill(5, 6), mill(5, 6));
    assert_ne!(mill(5, 6), mill(5, 7));
    assert_ne!(mill(5, 6), mill(6, 6));
}
