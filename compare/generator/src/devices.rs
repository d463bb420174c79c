//! Devices for sheets that are being made.

use crate::draft::{line, slot_places, Draft};
use crate::rng::Rng;
use second::sheet::DEVICE_LIMIT;

/// Some of these forms, of which there is at least one, as devices: one or
/// eight of them often, and in some sheets all of one form.
pub fn pick_devices(rng: &mut Rng, forms: &[u16]) -> Vec<u16> {
    let most = usize::from(DEVICE_LIMIT);
    let any = rng.between(1, most);
    let count = rng.pick(&[1, any, any, most]);
    let alone = rng.pick(forms);
    let same = rng.chance(15);
    let device = |_| if same { alone } else { rng.pick(forms) };
    (0..count).map(device).collect()
}

/// The lines of these devices; no line if there is none.
pub fn device_lines(devices: &[u16]) -> Draft {
    if devices.is_empty() {
        return Draft::new();
    }
    let mut draft = vec![line("devices", &[devices.len() as u32])];
    draft.extend(
        devices
            .iter()
            .map(|form| line("device", &[u32::from(*form)])),
    );
    draft
}

/// A form of a draft: whether its row is a resource, and whether it keeps
/// anything.
pub struct FormLine {
    pub resource: bool,
    pub keeps: bool,
}

/// The forms of a draft that can be read.
pub fn form_lines(draft: &Draft) -> Vec<FormLine> {
    let types = draft.iter().filter(|line| line.key == "type");
    let resources: Vec<bool> = types.map(|line| line.numbers[0] == 1).collect();
    let forms = draft.iter().filter(|line| line.key == "form");
    let form = |numbers: &[u32]| FormLine {
        resource: resources[numbers[0] as usize],
        keeps: numbers[1] > 0,
    };
    forms.map(|line| form(&line.numbers)).collect()
}

/// The forms of a draft that a device may have.
pub fn device_forms(draft: &Draft) -> Vec<u16> {
    let forms = (0..).zip(form_lines(draft));
    let right = forms.filter(|(_, form)| form.resource && !form.keeps);
    right.map(|(number, _)| number).collect()
}

/// Puts devices into a well-typed draft that has none, if one of its forms
/// can be a device. Main's slots move up, and in many places a device stands
/// for an object of its form that main made.
pub fn graft(rng: &mut Rng, draft: &mut Draft) {
    let main = draft.iter().position(|line| line.key == "main");
    let (Some(main), forms) = (main, device_forms(draft)) else {
        return;
    };
    if forms.is_empty() {
        return;
    }
    let devices = pick_devices(rng, &forms);
    let code = &mut draft[main + 1..];
    let made = code.iter().map(|line| match line.key {
        "new" => Some(line.numbers[0]),
        _ => None,
    });
    let made: Vec<Option<u32>> = made.collect();
    for line in code {
        for place in slot_places(line) {
            let slot = line.numbers[place] as usize;
            let same: Vec<u32> = (0..devices.len() as u32)
                .filter(|device| made[slot] == Some(devices[*device as usize].into()))
                .collect();
            line.numbers[place] = match rng.try_pick(&same) {
                Some(device) if rng.chance(60) => device,
                _ => (slot + devices.len()) as u32,
            };
        }
    }
    draft.splice(main..main, device_lines(&devices));
}

/// Grafts devices into some of the drafts.
pub fn with_some(rng: &mut Rng, mut draft: Draft) -> Draft {
    if rng.chance(25) {
        graft(rng, &mut draft);
    }
    draft
}
