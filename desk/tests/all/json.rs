//! A small reader of JSON, to see that what is printed is JSON.

use std::iter::Peekable;
use std::str::Chars;

/// A value of a document.
#[derive(Clone, Debug, PartialEq)]
pub enum Value {
    Null,
    Bool(bool),
    Number(f64),
    Text(String),
    List(Vec<Value>),
    Object(Vec<(String, Value)>),
}

impl Value {
    /// Reads a whole document.
    pub fn read(document: &str) -> Option<Value> {
        let mut letters = document.chars().peekable();
        let value = value(&mut letters)?;
        skip(&mut letters);
        letters.next().is_none().then_some(value)
    }

    /// A field of an object.
    pub fn get(&self, name: &str) -> Option<&Value> {
        let Value::Object(fields) = self else {
            return None;
        };
        let mut found = fields.iter().filter(|(field, _)| field == name);
        let one = found.next().map(|(_, value)| value);
        one.filter(|_| found.next().is_none())
    }

    /// A field that is a whole number.
    pub fn number(&self, name: &str) -> Option<u32> {
        match self.get(name)? {
            Value::Number(number) if number.fract() == 0.0 => Some(*number as u32),
            _ => None,
        }
    }

    /// A field that is a list.
    pub fn list(&self, name: &str) -> &[Value] {
        match self.get(name) {
            Some(Value::List(list)) => list,
            _ => &[],
        }
    }
}

type Letters<'a> = Peekable<Chars<'a>>;

fn skip(letters: &mut Letters) {
    while letters
        .next_if(|letter| " \n\t\r".contains(*letter))
        .is_some()
    {}
}

fn value(letters: &mut Letters) -> Option<Value> {
    skip(letters);
    match letters.peek()? {
        '"' => text(letters).map(Value::Text),
        '[' => items(letters, ']', value).map(Value::List),
        '{' => items(letters, '}', field).map(Value::Object),
        _ => {
            let word: String = std::iter::from_fn(|| {
                letters.next_if(|l| l.is_alphanumeric() || "-.+".contains(*l))
            })
            .collect();
            Some(match word.as_str() {
                "null" => Value::Null,
                "true" => Value::Bool(true),
                "false" => Value::Bool(false),
                number => Value::Number(number.parse().ok()?),
            })
        }
    }
}

fn items<T>(
    letters: &mut Letters,
    end: char,
    item: impl Fn(&mut Letters) -> Option<T>,
) -> Option<Vec<T>> {
    letters.next()?;
    let mut items = Vec::new();
    skip(letters);
    if letters.next_if_eq(&end).is_some() {
        return Some(items);
    }
    loop {
        items.push(item(letters)?);
        skip(letters);
        match letters.next()? {
            ',' => (),
            letter => return (letter == end).then_some(items),
        }
    }
}

fn field(letters: &mut Letters) -> Option<(String, Value)> {
    skip(letters);
    let name = text(letters)?;
    skip(letters);
    letters.next_if_eq(&':')?;
    Some((name, value(letters)?))
}

fn text(letters: &mut Letters) -> Option<String> {
    letters.next_if_eq(&'"')?;
    let mut text = String::new();
    loop {
        text.push(match letters.next()? {
            '"' => return Some(text),
            '\\' => match letters.next()? {
                'n' => '\n',
                't' => '\t',
                'r' => '\r',
                'u' => {
                    let code: String = letters.by_ref().take(4).collect();
                    char::from_u32(u32::from_str_radix(&code, 16).ok()?)?
                }
                letter @ ('"' | '\\' | '/') => letter,
                _ => return None,
            },
            letter if letter < ' ' => return None,
            letter => letter,
        });
    }
}

#[test]
fn the_reader_of_json_tells_documents_from_others() {
    let read = Value::read("{\"a\": [1, \"x\\u0041\\n\", null], \"b\": {}}\n").expect("a document");
    assert_eq!(read.list("a")[1], Value::Text("xA\n".into()));
    for other in [
        "",
        "{",
        "{\"a\":1,}",
        "[1 2]",
        "\"a\nb\"",
        "{} {}",
        "\"\\x\"",
        "1.2.3",
    ] {
        assert_eq!(Value::read(other), None, "{other}");
    }
}
