//! Lines of a sheet that is being made, before they become bytes.

/// A line: its key and its numbers, which may be over any limit.
#[derive(Clone, Debug, PartialEq, Eq)]
pub struct Line {
    pub key: &'static str,
    pub numbers: Vec<u32>,
}

pub type Draft = Vec<Line>;

pub fn line(key: &'static str, numbers: &[u32]) -> Line {
    Line {
        key,
        numbers: numbers.to_vec(),
    }
}

/// Where the numbers of a line stand that are slots.
pub fn slot_places(line: &Line) -> Vec<usize> {
    match line.key {
        "new" => (1..line.numbers.len()).collect(),
        "call" => vec![0, 2],
        "put" => vec![1],
        "copy" => vec![0],
        _ => Vec::new(),
    }
}

/// The bytes of a draft.
pub fn render(draft: &[Line]) -> Vec<u8> {
    let mut text = String::new();
    for line in draft {
        let numbers: Vec<String> = line.numbers.iter().map(u32::to_string).collect();
        text += &format!("{}={}\n", line.key, numbers.join(","));
    }
    text.into_bytes()
}
