//! Sheets with devices: well typed, of every count, at every edge, and among
//! the sheets of the other kinds.

use generator::device_refusals::{faults, DeviceRefusals, Fault, FAULTS};
use generator::device_things::{Devices, Thing, THINGS};
use generator::{device, device_edges, idle, mill, readable, sheet, strict, ROTATION};
use second::{Outcome, Sheet};

fn pair(text: &[u8]) -> (u32, u32) {
    match second::verdict(text) {
        Ok(()) => (0, 0),
        Err(refusal) => (refusal.number(), refusal.line),
    }
}

fn sheets(seed: u64, count: u64) -> impl Iterator<Item = Sheet> {
    (0..count).map(move |index| {
        let text = device(seed, index);
        assert_eq!(pair(&text), (0, 0), "index {index}");
        second::read(&text).expect("an accepted sheet")
    })
}

#[test]
fn the_seed_and_the_index_decide_a_device_sheet() {
    assert_eq!(device(5, 6), device(5, 6));
    assert_ne!(device(5, 6), device(5, 7));
    assert_ne!(device(5, 6), device(6, 6));
}

#[test]
fn the_edges_are_as_the_rules_say() {
    let edges = device_edges();
    for (number, (text, verdict)) in edges.iter().enumerate() {
        let lines = String::from_utf8_lossy(text).into_owned();
        assert_eq!(pair(text), *verdict, "edge {number}:\n{lines}");
        // The rotation has them in turn.
        assert_eq!(*text, sheet(1, number as u64 * ROTATION + 23));
    }
    let texts: std::collections::BTreeSet<_> = edges.iter().map(|edge| &edge.0).collect();
    assert_eq!(texts.len(), edges.len());
}

/// The last edges fill the store or the stack, or nearly so.
#[test]
fn edges_that_run() {
    let edges = device_edges();
    let run = |edge: &(Vec<u8>, _)| second::run(&edge.0, 10_000).expect("an accepted sheet");
    let runs: Vec<_> = edges[edges.len() - 6..].iter().map(run).collect();
    let outcomes: Vec<Outcome> = runs.iter().map(|run| run.outcome).collect();
    let (done, store, stack) = (Outcome::Done, Outcome::StoreFull, Outcome::StackFull);
    assert_eq!(outcomes, [done, store, done, store, done, stack]);
    let objects: Vec<u16> = runs.iter().map(|run| run.objects).collect();
    assert_eq!(objects, [256, 256, 256, 256, 64, 64]);
}

#[test]
fn everything_of_devices_is_common() {
    let mut devices = Devices::default();
    for sheet in sheets(41, 600) {
        devices.add(&sheet);
    }
    assert_eq!((devices.sheets, devices.equipped), (600, 600));
    for (name, count) in THINGS.iter().zip(devices.counts) {
        assert!(count >= 10, "{name}: {count} of 600");
    }
    assert!(devices.counts[0].min(devices.counts[7]) > 100);
}

#[test]
fn the_things_stand_in_the_order_of_their_numbers() {
    assert_eq!(THINGS[Thing::Twins as usize], "two devices of one form");
    assert_eq!(Thing::StackFull as usize + 1, THINGS.len());
    assert_eq!(Fault::ReadingAfter as usize + 1, FAULTS.len());
    assert_eq!(FAULTS[Fault::Keeps as usize], "a device that keeps");
}

#[test]
fn runs_end_in_every_way() {
    let mut outcomes = [0; 4];
    for index in 0..400 {
        let run = second::run(&device(42, index), 2_000).expect("an accepted sheet");
        outcomes[run.outcome as usize] += 1;
    }
    assert!(outcomes.iter().all(|count| *count > 10), "{outcomes:?}");
}

/// Of the sheets of a kind that can be read: how many have devices, and how
/// many of these are accepted.
fn equipped(make: fn(u64, u64) -> Vec<u8>, count: u64) -> (u32, u32) {
    let (mut some, mut accepted) = (0, 0);
    for index in 0..count {
        let text = make(43, index);
        if second::read(&text).is_ok_and(|sheet| !sheet.devices.is_empty()) {
            some += 1;
            accepted += u32::from(pair(&text) == (0, 0));
        }
    }
    (some, accepted)
}

#[test]
fn the_other_kinds_have_devices_too() {
    for (name, make) in [
        ("mill", mill as fn(u64, u64) -> Vec<u8>),
        ("idle", idle),
        ("strict", strict),
    ] {
        let (some, accepted) = equipped(make, 200);
        assert!(some >= 20 && accepted >= 10, "{name}: {some}, {accepted}");
    }
    let (some, _) = equipped(readable, 200);
    assert!(some >= 40, "readable: {some}");
}

/// Each well-typed kind of the rotation, and the misfits.
#[test]
fn each_kind_of_the_rotation_has_devices() {
    for kind in (0..15).chain(20..25) {
        let texts = (0..150).map(|round| sheet(44, round * ROTATION + kind));
        let read = texts.filter_map(|text| second::read(&text).ok());
        let some = read.filter(|sheet| !sheet.devices.is_empty()).count();
        assert!(some >= 5, "kind {kind}: {some} of 150");
    }
    for round in 0..150 {
        let text = sheet(44, round * ROTATION + 22);
        assert_eq!(pair(&text), (0, 0), "round {round}");
    }
}

#[test]
fn each_fault_is_reached_on_every_seed() {
    for seed in [1, 2, 3] {
        let mut refusals = DeviceRefusals::default();
        for index in (0..120 * ROTATION).filter(|index| index % ROTATION >= 22) {
            let text = sheet(seed, index);
            if let Err(refusal) = second::verdict(&text) {
                refusals.add(&text, refusal);
            }
        }
        for (name, count) in FAULTS.iter().zip(refusals.counts) {
            assert!(count >= 2, "seed {seed}, {name}: {count}");
        }
    }
}

/// Texts with one fault each, and what is told of them.
#[test]
fn small_faults_are_told() {
    let head = "types=2 type=0,0 type=1,0 forms=3 form=1,0 form=1,1 keep=0 form=0,0";
    let cases: [(&str, &[Fault]); 9] = [
        ("devices=0 main=1 new=0", &[Fault::None]),
        ("devices=9 device=0 main=1 new=0", &[Fault::Nine]),
        ("devices=2 device=0 main=1 new=0", &[Fault::TooFew]),
        (
            "devices=1 device=0 device=0 main=1 new=0",
            &[Fault::TooMany],
        ),
        ("devices=1 device=3 main=1 new=0", &[Fault::NextForm]),
        ("devices=1 device=0 main=1 copy=1", &[Fault::SlotBeyond]),
        ("devices=1 device=1 main=1 copy=0", &[Fault::Keeps]),
        ("devices=1 device=2 main=1 copy=0", &[Fault::Pure]),
        (
            "devices=1 device=2 main=1 copy=1",
            &[Fault::SlotBeyond, Fault::ReadingAfter],
        ),
    ];
    for (tail, expected) in cases {
        let text = format!("{head} {tail}").replace(' ', "\n") + "\n";
        let refusal = second::verdict(text.as_bytes()).expect_err("a fault");
        assert_eq!(faults(text.as_bytes(), refusal), expected, "{tail}");
    }
}
