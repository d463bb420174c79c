//! Refusal 3: the line is not in the sheet's shape.

use super::wanted::{named, wanted};
use crate::finding::{Case, Finding};
use crate::key::{Key, Role};
use crate::line::{Line, Piece};
use crate::reading::{Head, Place, Reading};
use crate::words::{counted, here, quoted, thousands};

/// What is out of shape: the file's own habits first, then the key, the
/// numbers, and the end of the line.
pub fn torn(case: &Case) -> Option<Finding> {
    let place = case.place();
    let Some(line) = case.line() else {
        return early_end(case, place?);
    };
    let habit = marked_order(line).or_else(|| blank(line, place));
    habit
        .or_else(|| carriage_return(case, line))
        .or_else(|| after_main(case, line, place?))
        .or_else(|| key(case, line, place))
        .or_else(|| numbers(line))
        .or_else(|| unended(line))
}

/// The text ends where a line is wanted.
fn early_end(case: &Case, place: Place) -> Option<Finding> {
    let (keys, why) = wanted(case, place)?;
    let ends = match case.text.is_empty() {
        true => "the text is empty",
        false => "the text ends here",
    };
    let label = format!("{ends}; wanted is {}: {why}", named(&keys));
    Some(Finding::at(0..0, label))
}

/// A byte order mark before the first line.
fn marked_order(line: &Line) -> Option<Finding> {
    let marks: [(&[u8], &str); 3] = [
        (b"\xef\xbb\xbf", "UTF-8 without a byte order mark"),
        (b"\xff\xfe", "plain ASCII, not UTF-16"),
        (b"\xfe\xff", "plain ASCII, not UTF-16"),
    ];
    let found = marks.iter().find(|(mark, _)| line.bytes.starts_with(mark));
    let (mark, way) = found.filter(|_| line.number == 1)?;
    let label = "a byte order mark, which an editor put there";
    Some(Finding::at(0..mark.len(), label).note(format!("save the file as {way}")))
}

/// A line with nothing on it.
fn blank(line: &Line, place: Option<Place>) -> Option<Finding> {
    let empty = line.bytes.iter().all(u8::is_ascii_whitespace);
    let label = match place {
        Some(Place::End) => "a blank line after main; the sheet ends with main's last line",
        _ => "a blank line; a sheet has none",
    };
    empty.then(|| Finding::at(0..line.bytes.len(), label))
}

/// Byte 13, which some editors put before byte 10.
fn carriage_return(case: &Case, line: &Line) -> Option<Finding> {
    let at = line.bytes.iter().position(|byte| *byte == b'\r')?;
    let others = case.lines.iter().filter(|line| line.bytes.contains(&b'\r'));
    let lines = match others.count() {
        1 => "1 line has one".into(),
        lines => format!("{} lines have one", thousands(lines as u64)),
    };
    let label = "a carriage return (byte 13); a line ends with byte 10 alone";
    let note = format!("{lines}: save the file with Unix line ends");
    Some(Finding::at(at..at + 1, label).note(note))
}

/// Something after main's last line.
fn after_main(case: &Case, line: &Line, place: Place) -> Option<Finding> {
    let head = case.reading.main.as_ref()?.head;
    if place != Place::End {
        return None;
    }
    let instructions = counted(head.count, "instruction");
    let cited = case.cited(head.line);
    let label =
        format!("nothing may follow: main has {instructions} ({cited}), and they are there");
    let finding = Finding::at(0..line.bytes.len(), label);
    let key = line.word().and_then(Key::of);
    Some(finding.noted(key.and_then(|key| miscounted(case, key))))
}

/// A line that the count before would have taken, had it been higher: what that
/// count would be, if it may be as high.
fn miscounted(case: &Case, key: Key) -> Option<String> {
    let (head, keys) = counter(&case.reading)?;
    let from = &case.lines[case.refusal.line as usize - 1..];
    let keys_there = from.iter().map_while(|line| Key::of(line.word()?));
    let more = keys_there.take_while(|key| keys.contains(key)).count();
    let lines = match more {
        1 => "this line".into(),
        _ => format!("these {more} lines"),
    };
    let said = case.lines.get(head.line.checked_sub(1)?)?;
    let entry = said.entry()?;
    let last = entry.numbers.len() - 1;
    let Some(Role::Limited(_, _, most)) = entry.key.role(last) else {
        return None;
    };
    let before = quoted(&said.bytes[..entry.numbers[last].span.start]);
    let count = head.count + more;
    let note = format!(
        "`{before}{count}` on line {} would count {lines} too",
        head.line
    );
    (keys.contains(&key) && count <= usize::from(most)).then_some(note)
}

/// What counts the lines before: the line that says how many, and their keys.
fn counter(reading: &Reading) -> Option<(Head, &'static [Key])> {
    Some(match *reading.places.last()? {
        Place::Row(row) | Place::Member(row, _) => {
            (reading.rows.get(row)?.head, &[Key::Def, Key::Var])
        }
        Place::Form(form) | Place::Keep(form, _) => (reading.forms.get(form)?.head, &[Key::Keep]),
        Place::Devices | Place::Device(_) => (reading.equipped?, &[Key::Device]),
        Place::Instr(owner, _) => (reading.code(owner)?.head, &Key::INSTRUCTIONS),
        _ => return None,
    })
}

/// What stands before `=`.
fn key(case: &Case, line: &Line, place: Option<Place>) -> Option<Finding> {
    let wanted = place.and_then(|place| wanted(case, place));
    let hint = wanted
        .as_ref()
        .map(|(keys, why)| format!("wanted is {}: {why}", named(keys)));
    let Some(word) = line.word() else {
        return Some(no_equals(line).noted(hint));
    };
    let Some(key) = Key::of(word) else {
        return Some(Finding::at(0..word.len(), no_key(word)).noted(hint));
    };
    let (keys, why) = wanted.filter(|(keys, _)| !keys.contains(&key))?;
    let label = format!("`{}` where {} is wanted: {why}", key.word(), named(&keys));
    Some(Finding::at(0..word.len(), label).noted(miscounted(case, key)))
}

/// A word that is no key.
fn no_key(word: &[u8]) -> String {
    let small = word.to_ascii_lowercase();
    let shown = quoted(word);
    match Key::of(small.trim_ascii()) {
        _ if word.is_empty() => "no key before `=`".into(),
        Some(key) if small != word => {
            format!(
                "`{shown}`: a key is in small letters alone, `{}`",
                key.word()
            )
        }
        Some(key) => format!("`{shown}`: no space goes with a key, `{}`", key.word()),
        None => format!("there is no key `{shown}`"),
    }
}

/// A line that has no `=`.
fn no_equals(line: &Line) -> Finding {
    let comment = [&b"#"[..], b"//", b";", b"--"];
    let label = match comment.iter().any(|start| line.bytes.starts_with(start)) {
        true => "a sheet has no comments",
        false => "there is no `=`; a line is a key, `=` and numbers with `,` between",
    };
    Finding::at(0..line.bytes.len(), label)
}

/// What stands behind `=`.
fn numbers(line: &Line) -> Option<Finding> {
    let pieces = line.pieces();
    let faulty = pieces.iter().find_map(|piece| {
        let label = number(piece)?;
        Some(Finding::at(piece.span.clone(), label))
    });
    faulty.or_else(|| count(line, &pieces))
}

/// What is wrong with a number.
fn number(piece: &Piece) -> Option<String> {
    let shown = quoted(piece.bytes);
    let digits = piece.bytes.iter().all(u8::is_ascii_digit);
    Some(match piece.bytes {
        [] => "a number is missing".into(),
        bytes if bytes.iter().any(u8::is_ascii_whitespace) => {
            format!("`{shown}`: nothing but digits makes a number, and no space goes with it")
        }
        _ if !digits => format!("`{shown}` is no number from 0 to 65,535"),
        [b'0', rest @ ..] if !rest.is_empty() => {
            let zeros = rest.iter().take_while(|digit| **digit == b'0').count();
            // Of zeros alone the last one stays.
            let plain = &rest[zeros.min(rest.len() - 1)..];
            format!("a leading zero: write {}", quoted(plain))
        }
        bytes if std::str::from_utf8(bytes).ok()?.parse::<u16>().is_err() => {
            "the largest number is 65,535".into()
        }
        _ => return None,
    })
}

/// Too few numbers for the key, or too many.
fn count(line: &Line, pieces: &[Piece]) -> Option<Finding> {
    let key = Key::of(line.word()?)?;
    let counts = key.counts();
    let there = here(pieces.len(), "number");
    let label = format!("`{}` has {}; {there}", key.word(), key.asks());
    match pieces.get(*counts.end()) {
        Some(extra) => Some(Finding::at(extra.span.start..line.bytes.len(), label)),
        None if pieces.len() < *counts.start() => {
            let end = line.bytes.len();
            Some(Finding::at(end..end, label))
        }
        None => None,
    }
}

/// A last line that byte 10 does not end.
fn unended(line: &Line) -> Option<Finding> {
    let end = line.bytes.len();
    let label = "no byte 10 (line feed) ends the last line";
    (!line.ended).then(|| Finding::at(end..end, label).note("end the file with a line break"))
}
