//! Single faults in sheets with devices, aimed at the refusals 3, 4, 7 and 14.

use crate::device::device;
use crate::devices::{form_lines, graft, FormLine};
use crate::draft::{line, slot_places, Draft};
use crate::mutate::other;
use crate::rng::Rng;
use crate::stray::add_fault;
use second::sheet::DEVICE_LIMIT;

/// How many kinds of fault there are.
const FAULTS: u64 = 20;

/// A sheet with devices and the fault of this number, or a near one where
/// that cannot be made.
pub fn wrong(rng: &mut Rng, number: u64) -> Draft {
    let mut draft = device(rng);
    if rng.chance(30) {
        let mut other = crate::any_well_typed(rng);
        if head(&other).is_none() {
            graft(rng, &mut other);
        }
        draft = if head(&other).is_some() { other } else { draft };
    }
    if make(rng, &mut draft, number % FAULTS).is_none() {
        make(rng, &mut draft, 3);
    }
    draft
}

/// The place of the `devices` line.
fn head(draft: &Draft) -> Option<usize> {
    draft.iter().position(|line| line.key == "devices")
}

/// The place of a device's line.
fn any_device(rng: &mut Rng, draft: &Draft) -> Option<usize> {
    let head = head(draft)?;
    let count = draft[head].numbers[0] as usize;
    let any = rng.between(1, count);
    Some(head + rng.pick(&[1, any, count]))
}

fn make(rng: &mut Rng, draft: &mut Draft, fault: u64) -> Option<()> {
    match fault {
        0..=2 => change_count(rng, draft, fault),
        3 => {
            let place = any_device(rng, draft)?;
            draft.remove(place);
            Some(())
        }
        4 => {
            let place = any_device(rng, draft)?;
            draft.insert(place, draft[place].clone());
            Some(())
        }
        5 => name_missing_form(rng, draft),
        6 => name_form(rng, draft, |form| form.resource && form.keeps),
        7 => name_form(rng, draft, |form| !form.resource && !form.keeps),
        8 => name_form(rng, draft, |form| !form.resource && form.keeps),
        9 => move_devices(rng, draft),
        10 => double_devices(draft),
        11 => add_number(rng, draft),
        12 => name_slot_beyond(rng, draft),
        13 | 14 => add_typing_fault(rng, draft, fault == 13),
        15 => add_reading_fault(rng, draft),
        16 => exchange_key(rng, draft),
        17 => {
            let head = head(draft)?;
            draft.remove(head);
            Some(())
        }
        18 => forget_devices(draft),
        _ => {
            let place = any_device(rng, draft)?;
            draft[place].numbers[0] = other(rng, draft[place].numbers[0]);
            Some(())
        }
    }
}

/// No device, one too many with its line, or any wrong count.
fn change_count(rng: &mut Rng, draft: &mut Draft, fault: u64) -> Option<()> {
    let head = head(draft)?;
    let count = draft[head].numbers[0] as usize;
    let over = u32::from(DEVICE_LIMIT) + 1;
    match fault {
        0 => {
            draft[head].numbers[0] = 0;
            if rng.chance(50) {
                draft.drain(head + 1..=head + count);
            }
        }
        1 => {
            let more = vec![draft[head + 1].clone(); over as usize - count];
            draft[head].numbers[0] = over;
            draft.splice(head + 1..head + 1, more);
        }
        _ => {
            let near = other(rng, count as u32);
            draft[head].numbers[0] = rng.pick(&[near, over + 1, 64, 256, 65_535, 65_536]);
        }
    }
    Some(())
}

fn name_missing_form(rng: &mut Rng, draft: &mut Draft) -> Option<()> {
    let place = any_device(rng, draft)?;
    let count = form_lines(draft).len() as u32;
    draft[place].numbers[0] = rng.pick(&[count, count, count + 1, 64, 65_535]);
    Some(())
}

/// Gives a device a form of this kind.
fn name_form(rng: &mut Rng, draft: &mut Draft, kind: fn(&FormLine) -> bool) -> Option<()> {
    let forms = (0..).zip(form_lines(draft));
    let wanted = forms.filter(|(_, form)| kind(form));
    let wanted: Vec<u32> = wanted.map(|(number, _)| number).collect();
    let place = any_device(rng, draft)?;
    draft[place].numbers[0] = rng.try_pick(&wanted)?;
    Some(())
}

/// Any form that no device may have.
fn name_wrong_form(rng: &mut Rng, draft: &mut Draft) -> Option<()> {
    name_form(rng, draft, |form| !form.resource || form.keeps)
}

/// Takes the devices from their place to another one.
fn move_devices(rng: &mut Rng, draft: &mut Draft) -> Option<()> {
    let head = head(draft)?;
    let count = draft[head].numbers[0] as usize;
    let lines: Draft = draft.drain(head..=head + count).collect();
    let forms = draft.iter().position(|line| line.key == "forms")?;
    let any = rng.below(draft.len());
    let places = [0, forms, forms + 1, head + 1, draft.len(), any];
    let place = rng.pick(&places);
    draft.splice(place..place, lines);
    Some(())
}

fn double_devices(draft: &mut Draft) -> Option<()> {
    let head = head(draft)?;
    let count = draft[head].numbers[0] as usize;
    let lines = draft[head..=head + count].to_vec();
    draft.splice(head..head, lines);
    Some(())
}

/// One number too many, or none, on a line of the devices.
fn add_number(rng: &mut Rng, draft: &mut Draft) -> Option<()> {
    let device = any_device(rng, draft)?;
    let place = rng.pick(&[head(draft)?, device]);
    let numbers = &mut draft[place].numbers;
    match rng.chance(80) {
        true => numbers.push(numbers[0]),
        false => numbers.clear(),
    }
    Some(())
}

/// A line of main that names the slot that it fills, or one after it.
fn name_slot_beyond(rng: &mut Rng, draft: &mut Draft) -> Option<()> {
    let main = draft.iter().position(|line| line.key == "main")?;
    let devices = draft[head(draft)?].numbers[0] as usize;
    let named = (main + 1..draft.len()).filter(|place| !slot_places(&draft[*place]).is_empty());
    let named: Vec<usize> = named.collect();
    let place = rng.try_pick(&named)?;
    let at = rng.pick(&slot_places(&draft[place]));
    let own = devices + place - main - 1;
    draft[place].numbers[at] = (own + rng.pick(&[0, 0, 0, 1])) as u32;
    Some(())
}

/// A wrong device, and a fault of typing before it or after it.
fn add_typing_fault(rng: &mut Rng, draft: &mut Draft, before: bool) -> Option<()> {
    let head = head(draft)?;
    add_fault(rng, draft, head, before);
    name_wrong_form(rng, draft)
}

/// A wrong device, and a fault of reading after it.
fn add_reading_fault(rng: &mut Rng, draft: &mut Draft) -> Option<()> {
    name_wrong_form(rng, draft)?;
    match rng.below(4) {
        0 => {
            draft.pop();
        }
        1 => draft.push(line("copy", &[0])),
        2 => return name_slot_beyond(rng, draft),
        _ => {
            let main = draft.iter().position(|line| line.key == "main")?;
            draft[main].numbers[0] = rng.pick(&[0, 33]);
        }
    }
    Some(())
}

fn exchange_key(rng: &mut Rng, draft: &mut Draft) -> Option<()> {
    let device = any_device(rng, draft)?;
    let head = head(draft)?;
    let (place, key) = rng.pick(&[
        (head, "device"),
        (head, "forms"),
        (head, "main"),
        (device, "devices"),
        (device, "form"),
        (device, "new"),
    ]);
    draft[place].key = key;
    Some(())
}

/// Main names its slots as if no device were there.
fn forget_devices(draft: &mut Draft) -> Option<()> {
    let main = draft.iter().position(|line| line.key == "main")?;
    let devices = draft[head(draft)?].numbers[0];
    for line in &mut draft[main + 1..] {
        for place in slot_places(line) {
            line.numbers[place] = line.numbers[place].saturating_sub(devices);
        }
    }
    Some(())
}
