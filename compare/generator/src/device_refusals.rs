//! For which faults of devices sheets are refused.

use crate::cases::cases;
use crate::tally;
use crate::walk::{passings, scenes};
use second::fit::FitTable;
use second::{Refusal, Sheet};

/// A fault of a sheet with devices.
#[derive(Clone, Copy, Debug, PartialEq, Eq)]
pub enum Fault {
    None,
    Nine,
    Over,
    BeforeForms,
    AfterMain,
    Twice,
    DevicesNumbers,
    DeviceNumbers,
    TooFew,
    TooMany,
    Unannounced,
    NextForm,
    NoForm,
    SlotBeyond,
    Keeps,
    Pure,
    KeepsAndPure,
    FirstOfSeveral,
    LastOfSeveral,
    TypingBefore,
    TypingAfter,
    ReadingAfter,
}

/// The names of the faults, in the order of their numbers.
pub const FAULTS: [&str; 22] = [
    "devices=0",
    "devices=9",
    "more than 9 devices",
    "devices before the forms",
    "devices after main",
    "devices twice",
    "a devices line with two numbers",
    "a device line with two numbers",
    "one device line too few",
    "one device line too many",
    "a device line without devices",
    "a device of the form after the last",
    "a device of a later form",
    "the slot just beyond, in a main with devices",
    "a device that keeps",
    "a pure device",
    "a pure device that keeps",
    "a wrong device that is the first of several",
    "a wrong device that is the last of several",
    "a fault of typing before a wrong device",
    "a fault of typing after a wrong device",
    "a fault of reading after a wrong device",
];

/// A line's key and its numbers; what is no number is left out.
type Words<'a> = (&'a str, Vec<u32>);

/// A refused text that is plain, line by line.
struct Text<'a> {
    lines: Vec<Words<'a>>,
    /// The place of the line at fault, counted from 0.
    at: usize,
}

impl<'a> Text<'a> {
    fn of(text: &'a [u8], refusal: Refusal) -> Option<Text<'a>> {
        let text = std::str::from_utf8(text).ok()?;
        let words = |line: &'a str| {
            let (key, numbers) = line.split_once('=').unwrap_or((line, ""));
            (key, numbers.split(',').flat_map(str::parse).collect())
        };
        Some(Text {
            lines: text.lines().map(words).collect(),
            at: (refusal.line as usize).checked_sub(1)?,
        })
    }

    /// The line at fault; one that is missing has no key.
    fn fault(&self) -> (&'a str, &[u32]) {
        let line = self.lines.get(self.at);
        line.map_or(("", &[]), |(key, numbers)| (key, numbers))
    }

    /// The first line with this key before the line at fault.
    fn before(&self, key: &str) -> Option<usize> {
        let before = &self.lines[..self.at.min(self.lines.len())];
        before.iter().position(|line| line.0 == key)
    }

    /// The number on the first line with this key.
    fn number(&self, key: &str) -> Option<u32> {
        self.lines[self.before(key)?].1.first().copied()
    }
}

/// The faults for which a text is refused, as far as they are of devices.
pub fn faults(text: &[u8], refusal: Refusal) -> Vec<Fault> {
    let Some(plain) = Text::of(text, refusal) else {
        return Vec::new();
    };
    let mut faults = Vec::from_iter(match refusal.number() {
        3 => torn(&plain),
        4 => over(&plain),
        7 => loose(&plain),
        _ => None,
    });
    match refusal.number() {
        3..=7 => {
            let early = before_main(text).and_then(|sheet| wrong_device(&sheet));
            let after = early.is_some_and(|line| line < refusal.line);
            faults.extend(after.then_some(Fault::ReadingAfter));
        }
        8..=10 | 14 => {
            let sheet = second::read(text).ok();
            faults.extend(sheet.map_or(Vec::new(), |sheet| typing(&sheet, refusal)));
        }
        _ => {}
    }
    faults
}

/// A torn line of devices, or one where a device's line should be.
fn torn(text: &Text) -> Option<Fault> {
    let (key, numbers) = text.fault();
    let announced = text.number("devices");
    let given = text.before("devices").map(|head| text.at - head - 1);
    let several = numbers.len() > 1;
    match key {
        "devices" if text.before("main").is_some() => Some(Fault::AfterMain),
        "devices" if text.before("forms").is_none() => Some(Fault::BeforeForms),
        "devices" if announced.is_some() => Some(Fault::Twice),
        "devices" if several => Some(Fault::DevicesNumbers),
        "device" if announced.is_none() => Some(Fault::Unannounced),
        "device" if several => Some(Fault::DeviceNumbers),
        "device" if announced.map(|count| count as usize) == given => Some(Fault::TooMany),
        "main" if announced.is_some() => Some(Fault::TooFew),
        _ => None,
    }
}

fn over(text: &Text) -> Option<Fault> {
    match text.fault() {
        ("devices", [0]) => Some(Fault::None),
        ("devices", [9]) => Some(Fault::Nine),
        ("devices", _) => Some(Fault::Over),
        _ => None,
    }
}

fn loose(text: &Text) -> Option<Fault> {
    let (key, numbers) = text.fault();
    if key == "device" {
        let next = numbers.first().copied() == text.number("forms");
        return Some(if next { Fault::NextForm } else { Fault::NoForm });
    }
    let (devices, main) = (text.number("devices")?, text.before("main")?);
    let own = devices + (text.at - main - 1) as u32;
    let slots = match (key, numbers) {
        ("new", [_, slots @ ..]) => slots,
        ("copy", slots) => slots,
        ("call", [slot, _, argument]) => &[*slot, *argument],
        _ => &[],
    };
    slots.contains(&own).then_some(Fault::SlotBeyond)
}

/// The sheet up to main, with another main, if it can be read so far.
fn before_main(text: &[u8]) -> Option<Sheet> {
    let mut head = Vec::new();
    for line in text.split_inclusive(|byte| *byte == b'\n') {
        if line.starts_with(b"main=") {
            head.extend(b"main=1\nget=0\n");
            return second::read(&head).ok();
        }
        head.extend(line);
    }
    None
}

/// The line of the first device whose form keeps a value or is pure.
fn wrong_device(sheet: &Sheet) -> Option<u32> {
    let mut devices = sheet.devices.iter();
    let wrong = devices.find(|device| kind(sheet, device.form) != (false, false));
    wrong.map(|device| device.line)
}

/// Whether a form keeps a value, and whether it is pure.
fn kind(sheet: &Sheet, form: u16) -> (bool, bool) {
    let form = &sheet.forms[usize::from(form)];
    let pure = !sheet.rows[usize::from(form.row)].resource;
    (!form.keeps.is_empty(), pure)
}

fn typing(sheet: &Sheet, refusal: Refusal) -> Vec<Fault> {
    let place = |device: &second::sheet::Device| device.line == refusal.line;
    let Some(place) = sheet.devices.iter().position(place) else {
        let later = wrong_device(sheet).is_some_and(|line| line > refusal.line);
        return Vec::from_iter(later.then_some(Fault::TypingBefore));
    };
    let several = sheet.devices.len() > 1;
    let last = place + 1 == sheet.devices.len();
    let mut faults = vec![match kind(sheet, sheet.devices[place].form) {
        (true, true) => Fault::KeepsAndPure,
        (true, false) => Fault::Keeps,
        _ => Fault::Pure,
    }];
    faults.extend((several && place == 0).then_some(Fault::FirstOfSeveral));
    faults.extend((several && last).then_some(Fault::LastOfSeveral));
    faults.extend(main_is_wrong(sheet).then_some(Fault::TypingAfter));
    faults
}

/// Whether a line of main names a part that is not there, or has a misfit.
fn main_is_wrong(sheet: &Sheet) -> bool {
    let of_main = scenes(sheet)
        .into_iter()
        .filter(|scene| scene.own.is_none());
    let fit = FitTable::of(&sheet.rows);
    let misfit = |(line, passing)| {
        line >= sheet.main[0].line && !cases(&sheet.rows, &fit, &passing).0.is_empty()
    };
    of_main.count() < sheet.main.len() || passings(sheet).into_iter().any(misfit)
}

/// How many sheets are refused for each of the faults.
#[derive(Clone, Debug, Default, PartialEq, Eq)]
pub struct DeviceRefusals {
    pub counts: [u64; FAULTS.len()],
}

impl DeviceRefusals {
    /// Counts the faults of a refused text.
    pub fn add(&mut self, text: &[u8], refusal: Refusal) {
        for fault in faults(text, refusal) {
            self.counts[fault as usize] += 1;
        }
    }

    /// The faults for which no sheet is refused.
    pub fn missing(&self) -> Vec<String> {
        let missing = tally::missing(&FAULTS, &self.counts);
        missing.map(|name| format!("refused for {name}")).collect()
    }

    /// A line for each fault.
    pub fn lines(&self) -> String {
        tally::lines("refused for", &FAULTS, &self.counts)
    }
}
