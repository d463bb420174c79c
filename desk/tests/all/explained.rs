//! What is added to a refusal that the lines do not bear out: nothing, and no
//! panic.

use crate::common::ROOT;
use desk::explain::explain;
use desk::finding::Finding;
use desk::format::{Format, Judged};
use desk::library::Library;
use desk::style::Style;
use desk::text::Text;
use lexondar::{Error, Lack, Reason, Refusal, UnknownNumber};
use std::fs;

fn clerk() -> Text {
    let bytes = fs::read(format!("{ROOT}/examples/clerk.sheet")).expect("P");
    Text::of("clerk", &bytes)
}

/// A refusal that the library never gave.
fn refusal(reason: Reason, line: u32, lack: Option<Lack>) -> Error {
    Error::Refused(Refusal { reason, line, lack })
}

#[test]
fn where_the_lines_see_no_fault_the_reason_stands_alone() {
    let mut library = Library::new();
    let text = clerk();
    let misfit = |lack| refusal(Reason::Misfit, 19, Some(lack));
    let all = [
        misfit(Lack::Kind),
        misfit(Lack::Member(1)),
        refusal(Reason::NotAscending, 6, None),
        refusal(Reason::DuplicateRow, 6, None),
        refusal(Reason::NotDefined, 20, None),
        refusal(Reason::OutOfLimit, 16, None),
        refusal(Reason::Malformed, 16, None),
        refusal(Reason::ImpureForm, 12, None),
        refusal(Reason::WrongDevice, 13, None),
        refusal(Reason::CircularCall, 20, None),
        refusal(Reason::Misfit, 900, Some(Lack::Kind)),
    ];
    for error in all {
        let finding = explain(&mut library, &text, error);
        assert_eq!(finding, Finding::default(), "{error:?}");
    }
}

/// Lacks of the library's that the pair of rows does not have are not shown.
#[test]
fn a_misfit_is_explained_only_by_the_lack_that_the_verdict_has() {
    let mut library = Library::new();
    let bytes = fs::read(format!("{ROOT}/examples/refused-10-misfit.sheet")).expect("a sheet");
    let text = Text::of("misfit", &bytes);
    let said = |library: &mut Library, lack| {
        let error = refusal(Reason::Misfit, 19, Some(lack));
        explain(library, &text, error).mark.is_some()
    };
    assert!(said(&mut library, Lack::Member(1)));
    assert!(!said(&mut library, Lack::Member(2)));
    assert!(!said(&mut library, Lack::Kind));
}

#[test]
fn no_refusal_of_any_text_makes_it_panic() {
    let mut library = Library::new();
    let lacks = [
        None,
        Some(Lack::Count),
        Some(Lack::Kind),
        Some(Lack::Member(3)),
    ];
    for index in 0..400 {
        let mut bytes = generator::sheet(9, index);
        // Some texts end in the middle of a line.
        bytes.truncate(bytes.len() - index as usize % 3 * bytes.len() / 4);
        bytes.truncate(8_000);
        let text = Text::of("any", &bytes);
        let lines = bytes.split(|byte| *byte == b'\n').count() as u32;
        for reason in Reason::ALL {
            for line in [0, 1, 2, lines / 2, lines - 1, lines, lines + 1, u32::MAX] {
                let lack = lacks[(index as usize + line as usize) % 4];
                let answer = Err(refusal(*reason, line, lack));
                let finding = explain(&mut library, &text, refusal(*reason, line, lack));
                let text = &text;
                let judged = Judged {
                    text,
                    answer,
                    finding,
                };
                for (_, format) in Format::ALL {
                    assert!(!judged.record(format, Style::PLAIN).is_empty());
                }
            }
        }
    }
}

#[test]
fn a_number_of_a_later_library_is_shown_as_it_is() {
    let error = Error::Unknown(UnknownNumber {
        field: "refusal",
        number: 17,
    });
    let text = clerk();
    let judged = Judged {
        text: &text,
        answer: Err(error),
        finding: explain(&mut Library::new(), &text, error),
    };
    let words = "refusal 17 is of a later version than the crate";
    let record = |format| judged.record(format, Style::PLAIN);
    assert_eq!(record(Format::Text), format!("clerk: {words}\n"));
    assert_eq!(record(Format::Gcc), format!("clerk: error: {words}\n"));
    assert_eq!(
        record(Format::Tsv),
        format!("clerk\t?\t0\t\t\t{words}\t\t\n")
    );
    let json = format!("{{\"file\":\"clerk\",\"refusal\":null,\"reason\":\"{words}\"}}");
    assert_eq!(record(Format::Json), json);
}
