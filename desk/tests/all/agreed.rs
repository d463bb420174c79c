//! Number and line are the library's, in every format, on generated sheets; and
//! what the lines add to a refusal is true.

use crate::common::{folder, said, word};
use crate::json::Value;
use desk::commands::judge;
use desk::finding::Finding;
use desk::format::{Format, Judged};
use desk::library::Library;
use desk::style::Style;
use desk::text::Text;
use lexondar::raw;
use std::fs;

/// A refusal's number and line; 0 and 0 of an accepted sheet.
type Verdict = (u32, u32);

/// The library itself, by its bare numbers.
fn library(text: &[u8], unattended: bool) -> Verdict {
    let mut work = vec![0; raw::WORK];
    match unattended {
        true => {
            let given = raw::bound(text, &mut work);
            (given.refusal, given.line)
        }
        false => {
            let given = raw::verdict(text, &mut work);
            (given.refusal, given.line)
        }
    }
}

/// What stands between two words.
fn between<'a>(words: &'a str, before: &str, after: &str) -> &'a str {
    let from = words
        .find(before)
        .map_or(words.len(), |at| at + before.len());
    let rest = &words[from..];
    &rest[..rest.find(after).unwrap_or(rest.len())]
}

fn parsed(digits: &str) -> u32 {
    digits
        .parse()
        .unwrap_or_else(|_| panic!("`{digits}` is no number"))
}

/// Number and line as a record has them.
fn told(record: &str, format: Format) -> Verdict {
    match format {
        Format::Text if record.ends_with(": accepted\n") => (0, 0),
        Format::Text if record.contains(": accepted, at most ") => (0, 0),
        Format::Gcc if record.is_empty() => (0, 0),
        Format::Text | Format::Gcc => {
            let head = record.lines().next().expect("a line");
            let number = parsed(between(head, ": refusal ", " ("));
            let number = match format {
                Format::Gcc => parsed(between(head, ": error: refusal ", " (")),
                _ => number,
            };
            let place = head.strip_prefix("a sheet").expect("the name");
            let line = match place.strip_prefix(':').expect("a colon") {
                place if place.starts_with(' ') => 0,
                place => parsed(&place[..place.find(':').expect("a colon")]),
            };
            (number, line)
        }
        Format::Json => {
            let value = Value::read(record).expect("JSON");
            let number = |name| value.number(name).expect("a number");
            (number("refusal"), number("line"))
        }
        Format::Tsv => {
            let cells: Vec<&str> = record.trim_end_matches('\n').split('\t').collect();
            assert_eq!(cells.len(), 8, "{record}");
            (parsed(cells[1]), parsed(cells[2]))
        }
    }
}

/// Every format says what the library says.
fn is_told(judged: &Judged, wanted: Verdict) {
    for (name, format) in Format::ALL {
        let record = judged.record(format, Style::PLAIN);
        assert_eq!(told(&record, format), wanted, "{name}: {record}");
    }
}

/// A generated sheet, and whether it is asked for its most steps.
fn sheet(index: u64) -> (Vec<u8>, bool) {
    match index % 20 {
        0 => (generator::readable(26, index), false),
        1 => (generator::strict(26, index), true),
        2 => (generator::sheet(27, index), true),
        _ => (generator::sheet(26, index), false),
    }
}

#[test]
fn number_and_line_are_the_library_s_in_every_format() {
    let mut asked = Library::new();
    let (mut refused, mut proposed) = (0, 0);
    for index in 0..20_000 {
        let (bytes, unattended) = sheet(index);
        let text = Text::of("a sheet", &bytes);
        let judged = judge(&mut asked, &text, unattended);
        let wanted = library(&bytes, unattended);
        is_told(&judged, wanted);
        if index < 1_000 {
            // And where the lines add nothing.
            let bare = Judged {
                text: &text,
                answer: judged.answer,
                finding: Finding::default(),
            };
            is_told(&bare, wanted);
        }
        // The lines have something to say of every refusal that has a line.
        let marked = judged.finding.mark.is_some();
        assert_eq!(marked, wanted.1 > 0, "{index}: {wanted:?}");
        refused += u32::from(wanted.0 > 0);
        if let Some(mended) = mended(&judged) {
            let text = Text::of("a sheet", &mended);
            let now = judge(&mut asked, &text, unattended);
            assert!(is_later(&now, &judged), "{index}: {wanted:?}");
            proposed += 1;
        }
    }
    assert!(proposed > 100, "{proposed}");
    assert!((4_000..16_000).contains(&refused), "{refused}");
}

/// The text with what a note proposes in place of what is marked.
fn mended(judged: &Judged) -> Option<Vec<u8>> {
    let error = judged.answer.err()?;
    let line = error.refusal()?.line as usize;
    let mark = judged.finding.mark.as_ref()?;
    let notes = judged.finding.notes.iter();
    let mut proposed = notes.filter_map(|note| {
        let end = note.find(" would fit")?;
        let number = note[..end].rsplit([' ', ',']).next()?;
        number.parse::<u16>().ok().map(|number| number.to_string())
    });
    let proposed = proposed.next()?;
    let mut lines = judged.text.bytes.split_inclusive(|byte| *byte == b'\n');
    let mut mended: Vec<u8> = lines.by_ref().take(line - 1).flatten().copied().collect();
    let faulty = lines.next()?;
    // A body's result is mended by another last line, not by another number.
    if mark.span.start == 0 {
        mended.extend(format!("copy={proposed}\n").bytes());
    } else {
        mended.extend(&faulty[..mark.span.start]);
        mended.extend(proposed.bytes());
        mended.extend(&faulty[mark.span.end..]);
    }
    mended.extend(lines.flatten());
    Some(mended)
}

/// Accepted, or refused later than before: in a later pass, further down, or
/// for a later value on the same line.
fn is_later(now: &Judged, before: &Judged) -> bool {
    let place = |judged: &Judged| {
        let error = judged.answer.err()?;
        let refusal = error.refusal()?;
        let mark = judged.finding.mark.as_ref()?;
        let column = match mark.span.start {
            // A body's result comes last.
            0 => usize::MAX,
            column => column,
        };
        Some((refusal.reason.number() >= 12, refusal.line, column))
    };
    now.answer.is_ok() || place(now) > place(before)
}

#[test]
fn a_folder_of_sheets_is_checked_as_each_sheet_is() {
    let folder = folder("agreed");
    let mut wanted = Vec::new();
    for index in 0..600 {
        let bytes = generator::sheet(5, index);
        let name = folder.join(format!("{index:04}.sheet"));
        fs::write(&name, &bytes).expect("a sheet");
        wanted.push((name, library(&bytes, false)));
    }
    let said_of = |format| said(&["check", "--format", format, word(&folder)]);
    let table = said_of("tsv");
    assert_eq!(table.status, 1);
    let rows: Vec<Vec<&str>> = table
        .out
        .lines()
        .map(|row| row.split('\t').collect())
        .collect();
    assert_eq!(rows.len(), 601);
    let document = Value::read(&said_of("json").out).expect("JSON");
    let sheets = document.list("sheets");
    for (((name, (number, line)), row), sheet) in wanted.iter().zip(&rows[1..]).zip(sheets) {
        assert_eq!(
            (row[0], parsed(row[1]), parsed(row[2])),
            (word(name), *number, *line)
        );
        assert_eq!(sheet.get("file"), Some(&Value::Text(word(name).into())));
        assert_eq!(
            (sheet.number("refusal"), sheet.number("line")),
            (Some(*number), Some(*line))
        );
    }
    let refused = wanted.iter().filter(|(_, verdict)| verdict.0 > 0).count();
    let counts = document.get("counts").expect("the counts");
    assert_eq!(counts.number("accepted"), Some(600 - refused as u32));
    let line = format!(
        "600 sheets: {} accepted, {refused} refused: ",
        600 - refused
    );
    assert!(table.err.starts_with(&line), "{}", table.err);
    let errors = said_of("gcc")
        .out
        .lines()
        .filter(|line| line.contains(": error: "))
        .count();
    assert_eq!(errors, refused);
    let quiet = said(&["check", "--quiet", "--format", "tsv", word(&folder)]);
    assert_eq!(
        (quiet.out.lines().count(), quiet.err.as_str()),
        (refused + 1, "")
    );
}
