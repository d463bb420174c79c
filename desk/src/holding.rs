//! Who holds what after a run, as the library says, with words for each object.

use crate::follow::forms;
use crate::library::Library;
use crate::line::lines;
use crate::reader::read;
use crate::reading::Reading;
use lexondar::{Error, Run, MAIN};

/// A holder, or several together.
#[derive(Clone, Debug, PartialEq, Eq)]
pub enum Who {
    Main,
    Object(u16),
    Group(Vec<u16>),
}

impl Who {
    /// The holder of a number.
    pub fn of(holder: u16) -> Who {
        match usize::from(holder) == MAIN {
            true => Who::Main,
            false => Who::Object(holder),
        }
    }
}

/// A holder with what it holds.
#[derive(Clone, Debug)]
pub struct Holding {
    pub who: Who,
    pub held: Vec<u16>,
}

/// A run with what holders hold after it.
pub struct Holdings {
    pub run: Run,
    pub all: Vec<Holding>,
    pub reading: Reading,
    /// The form of each object; empty where the lines do not tell.
    forms: Vec<usize>,
}

impl Holdings {
    /// Every holder's.
    pub fn of(library: &mut Library, text: &[u8], budget: u32) -> Result<Holdings, Error> {
        let (run, entries) = library.report(text, budget)?;
        let all: Vec<Holding> = entries
            .map(|(holder, held)| Holding {
                who: Who::of(holder),
                held: held.to_vec(),
            })
            .collect();
        let reading = read(&lines(text));
        let forms = forms(&reading, &run).filter(|forms| agree(&reading, forms, &all));
        Ok(Holdings {
            run,
            all,
            reading,
            forms: forms.unwrap_or_default(),
        })
    }

    /// The form of an object.
    pub fn form(&self, object: u16) -> Option<usize> {
        self.forms.get(usize::from(object)).copied()
    }

    /// Whether an object is a device.
    pub fn is_device(&self, object: u16) -> bool {
        usize::from(object) < self.reading.devices.len()
    }

    /// What an object is: `device, form 1`.
    pub fn about(&self, object: u16) -> String {
        let device = self.is_device(object).then(|| "device".to_string());
        let form = self.form(object).map(|form| format!("form {form}"));
        let words: Vec<String> = device.into_iter().chain(form).collect();
        words.join(", ")
    }

    /// A holder: `main`, `object 2 (form 2)`.
    pub fn holder(&self, who: &Who) -> String {
        match who {
            Who::Main => "main".into(),
            Who::Object(object) => match self.about(*object).as_str() {
                "" => format!("object {object}"),
                about => format!("object {object} ({about})"),
            },
            Who::Group(list) => format!("group {}", crate::words::numbers(list, "of nobody")),
        }
    }
}

/// Whether the objects that the lines call resources are the library's holders.
fn agree(reading: &Reading, forms: &[usize], all: &[Holding]) -> bool {
    let resources = forms.iter().zip(0u16..);
    let resources = resources.filter(|(form, _)| reading.is_resource(**form) == Some(true));
    let resources = resources.map(|(_, object)| Who::Object(object));
    let holders = all.iter().map(|holding| holding.who.clone());
    resources.eq(holders.filter(|who| *who != Who::Main))
}
