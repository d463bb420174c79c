//! docs/RULES.md names only what exists, and every definition of a rule crate
//! is used by something.

use std::collections::{BTreeMap, BTreeSet};
use std::fs;
use std::path::{Path, PathBuf};

const ROOT: &str = concat!(env!("CARGO_MANIFEST_DIR"), "/../..");

/// The crates of rules, by the letters that RULES.md has for them.
const RULES: [(&str, &str); 5] = [
    ("S", "sheet_rules"),
    ("T", "type_rules"),
    ("M", "machine_rules"),
    ("A", "authority_rules"),
    ("B", "bound_rules"),
];

/// All files below a folder with one of the endings, but for what checks leave
/// in a folder `out`.
fn files(folder: &Path, endings: &[&str]) -> Vec<PathBuf> {
    let mut found = Vec::new();
    for entry in fs::read_dir(folder).into_iter().flatten() {
        let path = entry.expect("an entry").path();
        if path.is_dir() {
            if !path.ends_with("out") {
                found.extend(files(&path, endings));
            }
        } else if path
            .extension()
            .is_some_and(|e| endings.iter().any(|ending| e == *ending))
        {
            found.push(path);
        }
    }
    found
}

/// The names in a piece of antt or Rattle.
fn words(text: &str) -> impl Iterator<Item = &str> {
    text.split(|c: char| c.is_whitespace() || "(){}[]<>,;.:=\"`".contains(c))
        .filter(|word| !word.is_empty())
}

/// What a line declares at its start, if it is public: a definition, a law, a
/// type or a constructor.
fn declared(line: &str) -> Option<&str> {
    let mut line = line.trim_start();
    for mark in ["abbrev ", "unfoldable ", "pub ", "data ", "record "] {
        line = line.strip_prefix(mark).unwrap_or(line);
    }
    words(line).next()
}

/// The names that a module of a crate declares.
fn names_in(krate: &str, module: &str) -> Vec<String> {
    let mut names = Vec::new();
    for part in ["specs", "proofs"] {
        let path = format!("{ROOT}/crates/{krate}/{part}/{module}.antt");
        if let Ok(text) = fs::read_to_string(path) {
            names.extend(text.lines().filter_map(declared).map(String::from));
        }
    }
    names
}

/// Whether a crate's code has a function, a type or a variant of this name.
fn is_code(krate: &str, name: &str) -> bool {
    let folder = Path::new(ROOT).join("crates").join(krate).join("src");
    files(&folder, &["rt"])
        .iter()
        .any(|file| words(&fs::read_to_string(file).expect("a source")).any(|word| word == name))
}

/// Walks along a cell: a crate, a module and names, or paths of the code.
struct Cell<'a> {
    row: &'a str,
    krate: String,
    module: String,
    faults: Vec<String>,
}

impl Cell<'_> {
    fn fault(&mut self, item: &str) {
        self.faults.push(format!("{item} ({})", self.row));
    }

    /// `crate`, `crate::path::name`, `name` of the last crate, or a file.
    fn code(&mut self, path: &str) {
        if path.contains('.') || path.contains('/') {
            if !Path::new(ROOT).join(path).exists() {
                self.fault(path);
            }
            return;
        }
        let parts: Vec<&str> = path.split("::").collect();
        if is_crate(parts[0]) {
            self.krate = parts[0].into();
        }
        let name = parts[parts.len() - 1];
        if !is_crate(name) && !is_code(&self.krate, name) {
            self.fault(path);
        }
    }

    /// `Module.name`, a module, or a name of the last module.
    fn rule(&mut self, item: &str) {
        let (module, name) = match item.split_once('.') {
            Some((module, name)) => (module, Some(name)),
            None if item.starts_with(char::is_uppercase) && self.is_module(item) => (item, None),
            None => ("", Some(item)),
        };
        if !module.is_empty() {
            self.module = module.into();
        }
        let names = names_in(&self.krate, &self.module);
        if names.is_empty() || name.is_some_and(|name| !names.iter().any(|n| n == name)) {
            self.fault(item);
        }
    }

    fn is_module(&self, name: &str) -> bool {
        !names_in(&self.krate, name).is_empty()
    }

    /// What stands after `in` is a test, in words.
    fn walk(&mut self, cell: &str) {
        let cell = cell.split("in `compare").next().unwrap_or(cell);
        for piece in cell.split([',', ';', '(', ')']) {
            let mut piece = piece.trim();
            for (letter, krate) in RULES {
                if let Some(rest) = piece.strip_prefix(letter).filter(|r| r.starts_with(' ')) {
                    self.krate = krate.into();
                    piece = rest.trim();
                }
            }
            if let Some(rest) = piece.strip_prefix('`') {
                let (path, rest) = rest.split_once('`').expect("a closing mark");
                self.code(path);
                piece = rest.trim();
            }
            if !piece.is_empty() && piece.split(' ').count() == 1 {
                self.rule(piece);
            }
        }
    }
}

fn is_crate(name: &str) -> bool {
    Path::new(ROOT).join("crates").join(name).is_dir()
}

/// The rows of the first table, each a rule with its three cells.
fn rows(text: &str) -> Vec<Vec<&str>> {
    text.lines()
        .filter(|line| line.starts_with("| ") && !line.starts_with("| rule "))
        .map(|line| line.trim_matches('|').split(" | ").map(str::trim).collect())
        .filter(|cells: &Vec<&str>| cells.len() == 4)
        .collect()
}

#[test]
fn every_name_of_the_rules_table_exists() {
    let text = fs::read_to_string(format!("{ROOT}/docs/RULES.md")).expect("the rules");
    let mut faults = Vec::new();
    let mut seen = 0;
    for cells in rows(&text) {
        for cell in &cells[1..3] {
            let mut walk = Cell {
                row: cells[0],
                krate: String::new(),
                module: String::new(),
                faults: Vec::new(),
            };
            walk.walk(cell);
            faults.extend(walk.faults);
        }
        seen += 1;
    }
    assert!(seen > 50, "{seen} rows");
    assert!(faults.is_empty(), "{}", faults.join("\n"));
}

/// Every edit that RULES.md names is there, and every edit is named.
#[test]
fn every_edit_is_named_and_every_named_edit_is_there() {
    let text = fs::read_to_string(format!("{ROOT}/docs/RULES.md")).expect("the rules");
    let mut there: BTreeMap<(String, String), bool> = BTreeMap::new();
    for file in files(&Path::new(ROOT).join("crates"), &["edit"]) {
        let label = file.file_stem().expect("a name").to_string_lossy();
        let krate = file.ancestors().nth(2).and_then(Path::file_name);
        let krate = krate.expect("a crate").to_string_lossy();
        there.insert((krate.into(), label.into()), false);
    }
    for line in text.lines().filter(|line| line.starts_with("| ")) {
        let cell = line.trim_end_matches('|').rsplit(" | ").next();
        let mut crates: Vec<&str> = Vec::new();
        let mut waiting: Vec<&str> = Vec::new();
        for item in cell.unwrap_or("").trim().split(", ") {
            let (first, label) = item.split_once(' ').unwrap_or((item, ""));
            let named = RULES.iter().find(|(letter, _)| *letter == first);
            let krate = named.map_or(first, |(_, krate)| krate);
            match (is_crate(krate), label) {
                (true, "") => waiting.push(krate),
                (true, _) => {
                    waiting.push(krate);
                    crates = std::mem::take(&mut waiting);
                }
                _ => crates = crates.last().copied().into_iter().collect(),
            }
            let label = if label.is_empty() { first } else { label };
            for krate in &crates {
                if let Some(named) = there.get_mut(&((*krate).into(), label.into())) {
                    *named = true;
                } else if !is_crate(label) && !label.contains(' ') {
                    panic!("{krate} {label} is not there");
                }
            }
        }
    }
    let unnamed: Vec<_> = there.iter().filter(|(_, named)| !**named).collect();
    assert!(unnamed.is_empty(), "{unnamed:?}");
}

/// A crate and all that it stands on, by crates.txt.
fn reached(name: &str) -> BTreeSet<String> {
    let text = fs::read_to_string(format!("{ROOT}/crates.txt")).expect("the crates");
    let mut reached = BTreeSet::from([String::from(name)]);
    loop {
        let before = reached.len();
        for line in text.lines() {
            if let Some((krate, named)) = line.split_once(':') {
                if reached.contains(krate) {
                    reached.extend(named.split_whitespace().map(String::from));
                }
            }
        }
        if reached.len() == before {
            return reached;
        }
    }
}

#[test]
fn typing_and_machine_stand_on_the_table_and_never_see_the_bytes() {
    for name in ["typing", "machine", "authority", "bound"] {
        let crates = reached(name);
        assert!(crates.contains("table"), "{name}");
        for krate in crates {
            assert_ne!(krate, "lexer", "{name}");
            let folder = Path::new(ROOT).join("crates").join(&krate).join("src");
            for file in files(&folder, &["rt"]) {
                let text = fs::read_to_string(&file).expect("a source");
                assert!(!text.contains("[u8]"), "{}", file.display());
            }
        }
    }
}

/// A definition that nothing uses guards nothing. What counts is a use outside
/// its own lines, `use` lines and `unfolding` lists.
#[test]
fn every_definition_of_a_rule_crate_is_used() {
    let mut uses: BTreeMap<String, u32> = BTreeMap::new();
    for file in files(&Path::new(ROOT).join("crates"), &["antt", "rt"]) {
        let text = fs::read_to_string(file).expect("a file");
        for line in text.lines().filter(|line| !is_mention(line)) {
            let own = declared(line);
            for word in words(line).filter(|word| Some(*word) != own) {
                *uses.entry(word.into()).or_default() += 1;
            }
        }
    }
    let mut unused = Vec::new();
    for (_, krate) in RULES {
        let specs = Path::new(ROOT).join("crates").join(krate).join("specs");
        for file in files(&specs, &["antt"]) {
            let text = fs::read_to_string(&file).expect("a file");
            for line in text.lines().filter(|line| line.contains("pub ")) {
                let name = declared(line).expect("a name");
                if !uses.contains_key(name) && !line.starts_with("pub mod") {
                    unused.push(format!("{}: {name}", file.display()));
                }
            }
        }
    }
    assert!(unused.is_empty(), "{}", unused.join("\n"));
}

/// A line that mentions names without using them.
fn is_mention(line: &str) -> bool {
    let line = line.trim_start();
    ["use ", "ghost use ", "unfolding ", "--", "//"]
        .iter()
        .any(|start| line.starts_with(start))
}
