//! What the tests of strict sheets share.

/// A call against the rule: its line, the body's own name and the called.
#[derive(Clone, Copy, Debug, PartialEq, Eq)]
pub struct Against {
    pub line: u32,
    pub own: u32,
    pub called: u32,
}

/// The calls against the rule, line by line, in a text that can be read.
pub fn against(text: &[u8]) -> Vec<Against> {
    let text = std::str::from_utf8(text).expect("plain text");
    let mut rows: Vec<Vec<u32>> = Vec::new();
    let mut bodies = Vec::new().into_iter();
    let mut own = None;
    let mut found = Vec::new();
    for (line, words) in (1..).zip(text.lines()) {
        let (key, numbers) = words.split_once('=').expect("a key");
        let numbers: Vec<u32> = numbers.split(',').flat_map(str::parse).collect();
        match key {
            "type" => rows.push(Vec::new()),
            "def" => rows.last_mut().expect("a row").push(numbers[0]),
            "form" => bodies = rows[numbers[0] as usize].clone().into_iter(),
            "body" => own = bodies.next(),
            "main" => own = None,
            "call" => {
                let called = numbers[1];
                let own = own.filter(|own| called >= *own);
                found.extend(own.map(|own| Against { line, own, called }));
            }
            _ => {}
        }
    }
    found
}

/// Steps, or a refusal's number and line.
pub fn bound(text: &[u8]) -> Result<u32, (u32, u32)> {
    second::bound(text).map_err(|refusal| (refusal.number(), refusal.line))
}
