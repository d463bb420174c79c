//! What is said of a sheet that was checked: for people, for editors, and for
//! other programs.

use crate::excerpt::{excerpt, note};
use crate::finding::Finding;
use crate::json;
use crate::line::lines;
use crate::style::Style;
use crate::text::Text;
use crate::words::counted;
use lexondar::{Error, Lack, Refusal};

/// The formats.
#[derive(Clone, Copy, Debug, PartialEq, Eq)]
pub enum Format {
    Text,
    Gcc,
    Json,
    Tsv,
}

impl Format {
    /// Every format with its name.
    pub const ALL: [(&'static str, Format); 4] = [
        ("text", Format::Text),
        ("gcc", Format::Gcc),
        ("json", Format::Json),
        ("tsv", Format::Tsv),
    ];

    /// The format of a name.
    pub fn of(name: &str) -> Option<Format> {
        let found = Format::ALL.iter().find(|(known, _)| *known == name);
        found.map(|(_, format)| *format)
    }
}

/// A sheet with the library's answer.
pub struct Judged<'a> {
    pub text: &'a Text,
    /// Accepted, with the most steps if these were asked for; or why not.
    pub answer: Result<Option<u32>, Error>,
    /// What the lines add to a refusal.
    pub finding: Finding,
}

/// The columns of the table, and a line of their names.
pub const TSV_HEAD: &str = "file\trefusal\tline\tcolumn\tword\treason\tmark\tnotes\n";

impl Judged<'_> {
    /// Its record in a format.
    pub fn record(&self, format: Format, style: Style) -> String {
        match format {
            Format::Text => self.for_people(style),
            Format::Gcc => self.for_editors(),
            Format::Json => self.as_json(),
            Format::Tsv => self.as_tsv(),
        }
    }

    fn for_people(&self, style: Style) -> String {
        match self.answer {
            Ok(steps) => {
                let steps = steps.map_or(String::new(), |steps| {
                    format!(", at most {}", counted(steps as usize, "step"))
                });
                let accepted = style.good("accepted");
                format!("{}: {accepted}{steps}\n", plain(&self.text.name))
            }
            Err(error) => refused(style, self.text, error, &self.finding),
        }
    }

    /// One line that an editor can jump from, and one for each note.
    fn for_editors(&self) -> String {
        let Err(error) = self.answer else {
            return String::new();
        };
        let name = plain(&self.text.name);
        let line = line_of(error);
        let place = match (line, self.column()) {
            (0, _) => name.clone(),
            (line, None) => format!("{name}:{line}"),
            (line, Some(column)) => format!("{name}:{line}:{column}"),
        };
        let label = self
            .finding
            .mark
            .as_ref()
            .map(|mark| format!(": {}", mark.label));
        let mut lines = format!(
            "{place}: error: {}{}\n",
            headline(error),
            label.unwrap_or_default()
        );
        for note in &self.finding.notes {
            lines += &format!("{place}: note: {note}\n");
        }
        lines
    }

    fn as_json(&self) -> String {
        let mut fields = vec![("file", json::string(&self.text.name))];
        match self.answer {
            Ok(steps) => {
                fields.extend([("refusal", "0".into()), ("line", "0".into())]);
                fields.extend(steps.map(|steps| ("steps", steps.to_string())));
            }
            Err(Error::Refused(refusal)) => {
                fields.push(("refusal", refusal.reason.number().to_string()));
                fields.push(("line", refusal.line.to_string()));
                fields.extend(self.column().map(|column| ("column", column.to_string())));
                fields.push(("word", json::string(refusal.reason.word())));
                fields.push(("reason", json::string(&refusal.reason.to_string())));
                fields.extend(refusal.lack.into_iter().flat_map(lack_json));
                let mark = self.finding.mark.as_ref();
                fields.extend(mark.map(|mark| ("mark", json::string(&mark.label))));
                let notes = self.finding.notes.iter().map(|note| json::string(note));
                fields.push(("notes", json::array(notes)));
            }
            Err(unknown) => {
                fields.push(("refusal", "null".into()));
                fields.push(("reason", json::string(&unknown.to_string())));
            }
        }
        json::object(&fields)
    }

    fn as_tsv(&self) -> String {
        let column = self
            .column()
            .map_or(String::new(), |column| column.to_string());
        let mark = self.finding.mark.as_ref().map(|mark| mark.label.clone());
        let [refusal, word, reason] = match self.answer {
            Ok(None) => ["0".into(), "accepted".into(), String::new()],
            Ok(Some(steps)) => [
                "0".into(),
                "accepted".into(),
                format!("at most {steps} steps"),
            ],
            Err(Error::Refused(Refusal { reason, .. })) => [
                reason.number().to_string(),
                reason.word().into(),
                reason.to_string(),
            ],
            Err(unknown) => ["?".into(), String::new(), unknown.to_string()],
        };
        let line = self.answer.err().map_or(0, line_of).to_string();
        let name = tsv_cell(&self.text.name);
        let notes = self.finding.notes.join("; ");
        let cells = [
            name,
            refusal,
            line,
            column,
            word,
            reason,
            mark.unwrap_or_default(),
            notes,
        ];
        cells.join("\t") + "\n"
    }

    /// Where the mark begins, counted from 1.
    fn column(&self) -> Option<usize> {
        self.finding.mark.as_ref().map(|mark| mark.span.start + 1)
    }
}

/// A refusal for people: why, the line with its mark, and notes.
pub fn refused(style: Style, text: &Text, error: Error, finding: &Finding) -> String {
    let line = line_of(error);
    let place = match line {
        0 => plain(&text.name),
        _ => format!("{}:{line}", plain(&text.name)),
    };
    let mut shown = format!(
        "{}: {}\n",
        style.bold(&place),
        style.fault(&headline(error))
    );
    if line > 0 {
        let lines = lines(&text.bytes);
        let bytes = lines
            .get(line as usize - 1)
            .map_or(&[][..], |line| line.bytes);
        let mark = finding.mark.as_ref();
        let mark = mark.map(|mark| (&mark.span, mark.label.as_str()));
        shown += &excerpt(style, line, bytes, mark);
    }
    for words in &finding.notes {
        shown += &note(style, line, words);
    }
    shown
}

/// `refusal 10 (misfit): a value does not fit where it goes`.
pub fn headline(error: Error) -> String {
    match error {
        Error::Refused(Refusal { reason, .. }) => {
            format!("refusal {} ({}): {reason}", reason.number(), reason.word())
        }
        unknown => unknown.to_string(),
    }
}

/// The line at fault, or 0.
pub fn line_of(error: Error) -> u32 {
    error.refusal().map_or(0, |refusal| refusal.line)
}

/// What is lacking, and the member's name.
fn lack_json(lack: Lack) -> Vec<(&'static str, String)> {
    match lack {
        Lack::Count => vec![("lack", json::string("count"))],
        Lack::Kind => vec![("lack", json::string("kind"))],
        Lack::Member(name) => vec![("lack", json::string("member")), ("name", name.to_string())],
    }
}

/// A name without bytes that a terminal would take for commands.
pub fn plain(name: &str) -> String {
    let letters = name.chars();
    letters
        .map(|letter| match letter.is_control() {
            true => letter.escape_default().to_string(),
            false => letter.to_string(),
        })
        .collect()
}

/// A cell without tabs and line breaks.
fn tsv_cell(words: &str) -> String {
    let words = words.replace('\\', "\\\\");
    words
        .replace('\t', "\\t")
        .replace('\n', "\\n")
        .replace('\r', "\\r")
}
