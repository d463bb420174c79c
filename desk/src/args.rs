//! The words of a command line.

use std::ffi::{OsStr, OsString};

/// An option that a command takes.
pub struct Choice {
    /// With its two dashes.
    pub name: &'static str,
    /// What its value is called, if it has one.
    pub value: Option<&'static str>,
    pub about: &'static str,
}

/// Why a command line is not taken.
#[derive(Debug, PartialEq, Eq)]
pub struct Usage(pub String);

impl Usage {
    pub fn new<T>(words: impl Into<String>) -> Result<T, Usage> {
        Err(Usage(words.into()))
    }
}

/// A command's words and options.
#[derive(Debug, Default)]
pub struct Given {
    pub words: Vec<OsString>,
    options: Vec<(&'static str, String)>,
}

impl Given {
    /// Sorts words from options. `--` ends the options, and `-` is a word.
    pub fn of(
        args: impl IntoIterator<Item = OsString>,
        choices: &[Choice],
    ) -> Result<Given, Usage> {
        let mut given = Given::default();
        let mut args = args.into_iter();
        while let Some(arg) = args.next() {
            match arg.to_str() {
                Some("--") => given.words.extend(args.by_ref()),
                Some(word) if word.starts_with('-') && word != "-" => {
                    let option = option(word, choices, &mut args)?;
                    given.add(option)?;
                }
                _ => given.words.push(arg),
            }
        }
        Ok(given)
    }

    fn add(&mut self, option: (&'static str, String)) -> Result<(), Usage> {
        if self.has(option.0) {
            return Usage::new(format!("{} stands twice", option.0));
        }
        self.options.push(option);
        Ok(())
    }

    /// Whether an option was given.
    pub fn has(&self, name: &str) -> bool {
        self.value(name).is_some()
    }

    /// An option's value.
    pub fn value(&self, name: &str) -> Option<&str> {
        let mut options = self.options.iter();
        let found = options.find(|(known, _)| *known == name);
        found.map(|(_, value)| value.as_str())
    }

    /// The one of these options that was given, if any; not two.
    pub fn one_of(&self, names: &[&'static str]) -> Result<Option<&'static str>, Usage> {
        let mut given = names.iter().copied().filter(|name| self.has(name));
        match (given.next(), given.next()) {
            (Some(a), Some(b)) => Usage::new(format!("{a} and {b} do not go together")),
            (one, _) => Ok(one),
        }
    }

    /// The number that an option has, up to the most that it may be.
    pub fn number(&self, name: &str, most: u32) -> Result<Option<u32>, Usage> {
        let value = self.value(name);
        let number = value.map(|value| number(value.as_ref(), name, most));
        number.transpose()
    }

    /// As many words as a command takes.
    pub fn exactly<const N: usize>(&self, asked: &str) -> Result<&[OsString; N], Usage> {
        let words = self.words.as_slice().try_into();
        words.map_err(|_| Usage(format!("takes {asked}")))
    }
}

/// A word as a number, up to the most that it may be.
pub fn number(word: &OsStr, what: &str, most: u32) -> Result<u32, Usage> {
    let shown = word.to_string_lossy();
    let digits = shown.bytes().all(|byte| byte.is_ascii_digit());
    let number = shown.parse::<u32>().ok().filter(|_| digits);
    let number = number.filter(|number| *number <= most);
    number.ok_or_else(|| {
        Usage(format!(
            "{what} is a number from 0 to {most}, not `{shown}`"
        ))
    })
}

/// A word as a number of a row, form or holder.
pub fn short(word: &OsStr, what: &str) -> Result<u16, Usage> {
    Ok(number(word, what, u16::MAX.into())? as u16)
}

/// An option with its value, which may stand behind `=` or be the next word.
fn option(
    word: &str,
    choices: &[Choice],
    rest: &mut impl Iterator<Item = OsString>,
) -> Result<(&'static str, String), Usage> {
    let (name, value) = match word.split_once('=') {
        Some((name, value)) => (name, Some(value.to_string())),
        None => (word, None),
    };
    let Some(choice) = choices.iter().find(|choice| choice.name == name) else {
        return Usage::new(format!("there is no option {name}"));
    };
    match (choice.value, value) {
        (None, None) => Ok((choice.name, String::new())),
        (None, Some(_)) => Usage::new(format!("{name} takes no value")),
        (Some(_), Some(value)) => Ok((choice.name, value)),
        (Some(what), None) => match rest.next().map(OsString::into_string) {
            Some(Ok(value)) => Ok((choice.name, value)),
            _ => Usage::new(format!("{name} wants {what}")),
        },
    }
}
