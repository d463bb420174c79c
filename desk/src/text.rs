//! The texts of sheets: files, folders and standard input.

use lexondar::raw::TEXT_MAX;
use std::ffi::OsStr;
use std::fs::{self, File};
use std::io::{self, Read};
use std::path::{Path, PathBuf};

/// The bytes of a text, and where they come from.
pub struct Text {
    /// The file's name, as it was given.
    pub name: String,
    /// Of a text that is too long only the first: enough to be refused for it.
    pub bytes: Vec<u8>,
    /// How many bytes there are, if that is known.
    pub length: Option<u64>,
}

/// Why there is no text: the file's name, and a reason.
#[derive(Debug)]
pub struct Unread {
    pub name: String,
    pub why: String,
}

impl Unread {
    fn of(path: &Path, why: impl ToString) -> Unread {
        Unread {
            name: shown(path),
            why: why.to_string(),
        }
    }
}

/// Standard input, as a file is named.
pub const STDIN: &str = "-";

/// What a folder's sheets end in.
const ENDING: &str = "sheet";

impl Text {
    /// A text that is there already.
    pub fn of(name: &str, bytes: &[u8]) -> Text {
        Text {
            name: name.into(),
            bytes: bytes.to_vec(),
            length: Some(bytes.len() as u64),
        }
    }

    /// Reads a file, or standard input.
    pub fn read(path: &OsStr) -> Result<Text, Unread> {
        match path == STDIN {
            true => stdin().map_err(|error| Unread::of("<stdin>".as_ref(), error)),
            false => file(Path::new(path)),
        }
    }
}

/// No more is read than tells that a text is too long, so that a device or a
/// very large file costs nothing.
fn first(source: &mut impl Read) -> io::Result<Vec<u8>> {
    let mut bytes = Vec::new();
    source.take(TEXT_MAX as u64 + 1).read_to_end(&mut bytes)?;
    Ok(bytes)
}

fn file(path: &Path) -> Result<Text, Unread> {
    let about = fs::metadata(path).map_err(|error| Unread::of(path, error))?;
    if about.is_dir() {
        return Err(Unread::of(path, "is a folder; name the sheets in it"));
    }
    let file = File::open(path).and_then(|mut file| first(&mut file));
    let bytes = file.map_err(|error| Unread::of(path, error))?;
    let whole = bytes.len() <= TEXT_MAX;
    let length = match about.is_file() && !whole {
        true => Some(about.len()),
        false => whole.then_some(bytes.len() as u64),
    };
    let name = shown(path);
    Ok(Text {
        name,
        bytes,
        length,
    })
}

/// Standard input is read to its end, so that whoever writes it is not cut off.
fn stdin() -> io::Result<Text> {
    let mut input = io::stdin().lock();
    let bytes = first(&mut input)?;
    let rest = io::copy(&mut input, &mut io::sink())?;
    Ok(Text {
        name: "<stdin>".into(),
        length: Some(bytes.len() as u64 + rest),
        bytes,
    })
}

/// The files that words name: themselves, or of a folder every sheet below it,
/// in the order of their names; and what could not be looked at.
#[derive(Default)]
pub struct Files {
    pub found: Vec<PathBuf>,
    pub unread: Vec<Unread>,
}

impl Files {
    /// Adds what a word names.
    pub fn add(&mut self, word: &OsStr) {
        let path = Path::new(word);
        if word == STDIN || !path.is_dir() {
            return self.found.push(path.into());
        }
        let before = self.found.len() + self.unread.len();
        self.add_below(path);
        if self.found.len() + self.unread.len() == before {
            let why = format!("no file below ends in .{ENDING}");
            self.unread.push(Unread::of(path, why));
        }
    }

    /// Adds the sheets below a folder. A folder behind a link is passed over,
    /// so that none is walked twice.
    fn add_below(&mut self, folder: &Path) {
        let paths = match paths(folder) {
            Ok(paths) => paths,
            Err(error) => return self.unread.push(Unread::of(folder, error)),
        };
        for path in paths {
            let ends = path.extension().is_some_and(|ending| ending == ENDING);
            match path.is_dir() {
                true if path.is_symlink() => (),
                true => self.add_below(&path),
                false if ends => self.found.push(path),
                false => (),
            }
        }
    }
}

/// What a folder has in it, sorted.
fn paths(folder: &Path) -> io::Result<Vec<PathBuf>> {
    let entries = fs::read_dir(folder)?;
    let paths = entries.map(|entry| Ok(entry?.path()));
    let mut paths = paths.collect::<io::Result<Vec<PathBuf>>>()?;
    paths.sort();
    Ok(paths)
}

/// A file's name as text.
fn shown(path: &Path) -> String {
    path.to_string_lossy().into_owned()
}
