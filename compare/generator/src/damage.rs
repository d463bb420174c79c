//! Damaged bytes.

use crate::rng::Rng;

/// How many kinds of damage there are.
pub const DAMAGES: u64 = 14;

/// Damages a text; the number decides how.
pub fn damage(rng: &mut Rng, mut text: Vec<u8>, kind: u64) -> Vec<u8> {
    let place = rng.below(text.len());
    match kind {
        0 => text[place] ^= 1 << rng.below(8),
        1 => text.insert(place, rng.below(256) as u8),
        2 => {
            text.remove(place);
        }
        3 => text.truncate(place),
        4 => text[place] = rng.between(128, 255) as u8,
        5 => {
            text.pop();
        }
        6 => return with_number(rng, &text, 6),
        7 => return with_number(rng, &text, 600),
        8 => return with_leading_zero(rng, &text),
        9 => return with_carriage_returns(rng, &text),
        10 => text.clear(),
        11 => text.extend_from_slice(rng.pick(&[
            b"copy=0\n".as_slice(),
            b"\n",
            b"main=1\n",
            b"devices=1\ndevice=0\n",
            b"x",
            b"types=1\n",
            b"\0",
        ])),
        12 => text.insert(place, rng.pick(b"0123456789,=\n")),
        _ => text[place] = rng.pick(b"0123456789,=\n"),
    }
    text
}

/// The places at which a number starts.
fn numbers(text: &[u8]) -> Vec<usize> {
    (1..text.len())
        .filter(|place| matches!(text[place - 1], b'=' | b',') && text[*place].is_ascii_digit())
        .collect()
}

/// The text with a number of `digits` digits in place of one of its own.
fn with_number(rng: &mut Rng, text: &[u8], digits: usize) -> Vec<u8> {
    let start = rng.pick(&numbers(text));
    let length = text[start..]
        .iter()
        .take_while(|byte| byte.is_ascii_digit())
        .count();
    let number = (0..digits).map(|place| match place {
        0 => b'1' + rng.below(9) as u8,
        _ => b'0' + rng.below(10) as u8,
    });
    let number: Vec<u8> = number.collect();
    [&text[..start], &number, &text[start + length..]].concat()
}

fn with_leading_zero(rng: &mut Rng, text: &[u8]) -> Vec<u8> {
    let start = rng.pick(&numbers(text));
    let zeros = vec![b'0'; rng.between(1, 3)];
    [&text[..start], &zeros, &text[start..]].concat()
}

/// Byte 13 before one byte 10, or before all of them.
fn with_carriage_returns(rng: &mut Rng, text: &[u8]) -> Vec<u8> {
    let breaks: Vec<usize> = (0..text.len()).filter(|at| text[*at] == b'\n').collect();
    let chosen = rng.pick(&breaks);
    let all = rng.chance(30);
    let mut answer = Vec::new();
    for (place, byte) in text.iter().enumerate() {
        if *byte == b'\n' && (all || place == chosen) {
            answer.push(b'\r');
        }
        answer.push(*byte);
    }
    answer
}
