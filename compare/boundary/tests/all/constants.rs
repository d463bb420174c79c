//! The numbers, words and layouts of the header, as C and C++ have them,
//! against those of the Rust crate.

use crate::compiler::{printed, CPP, ROOT};
use lexondar::raw::{self, *};
use lexondar::{Held, Holders, Lack, Outcome, Reason, Work};
use std::collections::BTreeMap;
use std::mem::{offset_of, size_of};

fn header() -> String {
    std::fs::read_to_string(format!("{ROOT}/include/lexondar.h")).expect("the header")
}

/// `BufferTooShort` as the header writes it.
fn screaming(name: &str) -> String {
    let mut words = String::from("LEXONDAR");
    for letter in name.chars() {
        if letter.is_uppercase() {
            words.push('_');
        }
        words.push(letter.to_ascii_uppercase());
    }
    words
}

/// Rust's constants, by the header's names.
fn rust() -> BTreeMap<String, u64> {
    let value = 0;
    let sizes = [
        ("TEXT_MAX", raw::TEXT_MAX),
        ("WORK", raw::WORK),
        ("WORK_BYTES", size_of::<Work>()),
        ("AUTHORITY", raw::AUTHORITY),
        ("AUTHORITY_BYTES", size_of::<Held>()),
        ("REPORT", raw::REPORT),
        ("REPORT_BYTES", size_of::<Holders>()),
        ("STACK", raw::STACK),
        ("GROUP", raw::GROUP),
        ("MAIN", lexondar::MAIN),
    ];
    let codes = [
        ("NO_VALUE", raw::NO_VALUE),
        ("ANSWERED", 0),
        ("LACKS_NOTHING", 0),
        ("LACKS_COUNT", Lack::Count.number()),
        ("LACKS_KIND", Lack::Kind.number()),
        ("LACKS_MEMBER", Lack::Member(0).number()),
        ("DONE", Outcome::Done { value }.number()),
        ("SPENT", Outcome::Spent.number()),
        ("STORE_FULL", Outcome::StoreFull.number()),
        ("STACK_FULL", Outcome::StackFull.number()),
        ("VERSION_NUMBER", version_number(lexondar::VERSION)),
    ];
    let sizes = sizes.map(|(name, size)| (format!("LEXONDAR_{name}"), size as u64));
    let codes = codes.map(|(name, code)| (format!("LEXONDAR_{name}"), code.into()));
    let reasons = Reason::ALL.iter();
    let reasons = reasons.map(|reason| (screaming(&format!("{reason:?}")), reason.number().into()));
    sizes.into_iter().chain(codes).chain(reasons).collect()
}

/// 0.2.0 is 200, and each part has two digits.
fn version_number(version: &str) -> u32 {
    let parts = version
        .split('.')
        .map(|part| part.parse().expect("a number"));
    parts.fold(0, |number, part: u32| 100 * number + part)
}

/// The name that a line of the header gives a number.
fn named(line: &str) -> Option<&str> {
    let line = line.trim();
    let (name, rest) = line
        .strip_prefix("#define ")
        .unwrap_or(line)
        .split_once(' ')?;
    let number = rest.strip_prefix("= ").unwrap_or(rest);
    let is_name = name.chars().all(|c| c == '_' || c.is_ascii_uppercase());
    (is_name && number.starts_with(|c: char| c.is_ascii_digit())).then_some(name)
}

/// What a program prints by these statements.
fn prints(compiler: &str, program: &str, statements: &str) -> String {
    let source = format!(
        "#include \"lexondar_words.h\"\n#include <stdio.h>\n\
         int main(void) {{\n{statements}return 0;\n}}\n"
    );
    printed(compiler, &format!("{program}-{compiler}"), &source)
}

/// Prints each name with its number.
fn lister(header: &str) -> String {
    let line = |name| format!("printf(\"%s %lu\\n\", \"{name}\", (unsigned long){name});\n");
    header.lines().filter_map(named).map(line).collect()
}

#[test]
fn c_cpp_and_rust_have_the_same_numbers_and_none_has_another() {
    let header = header();
    for compiler in ["cc", CPP] {
        let lines = prints(compiler, "constants", &lister(&header));
        let pairs = lines
            .lines()
            .map(|line| line.split_once(' ').expect("two words"));
        let numbers = pairs.map(|(name, number)| (name.into(), number.parse().expect("a number")));
        assert_eq!(
            numbers.collect::<BTreeMap<String, u64>>(),
            rust(),
            "{compiler}"
        );
    }
}

/// A result's size and the place of each of its fields.
macro_rules! layout {
    ($name:literal, $result:ty: $($field:ident)*) => {
        [
            ($name, "", size_of::<$result>()),
            $(($name, stringify!($field), offset_of!($result, $field)),)*
        ].to_vec()
    };
}

fn layouts() -> Vec<(&'static str, &'static str, usize)> {
    [
        layout!("fit", FitResult: refusal line lack name fits passed),
        layout!("verdict", VerdictResult: refusal line lack name),
        layout!("run", RunResult: refusal line lack name outcome steps value objects),
        layout!("authority", AuthorityResult: refusal line lack name count),
        layout!("report", ReportResult: refusal line lack name outcome steps value objects count),
        layout!("form", FormResult: refusal line lack name start length),
        layout!("bound", BoundResult: refusal line lack name steps),
    ]
    .concat()
}

#[test]
fn results_are_laid_out_alike_in_c_cpp_and_rust() {
    let mut statements = String::new();
    let mut wanted = String::new();
    for (name, field, place) in layouts() {
        let result = format!("struct lexondar_{name}_result");
        let given = match field {
            "" => format!("sizeof({result})"),
            field => format!("offsetof({result}, {field})"),
        };
        statements += &format!("printf(\"%lu\\n\", (unsigned long){given});\n");
        wanted += &format!("{place}\n");
    }
    for compiler in ["cc", CPP] {
        let lines = prints(compiler, "layouts", &statements);
        assert_eq!(lines, wanted, "{compiler}");
    }
}

#[test]
fn each_refusal_has_the_same_word_and_sentence_in_c_and_rust() {
    let last = Reason::ALL.len() as u32;
    let statements = format!(
        "for (uint32_t i = 1; i <= {last} + 1; i++)\n\
         printf(\"%s: %s\\n\", lexondar_word(i), lexondar_sentence(i));\n"
    );
    let said = |reason: &Reason| format!("{}: {reason}\n", reason.word());
    let wanted: String = Reason::ALL.iter().map(said).collect();
    let wanted = wanted + "unknown: the number is of a later version\n";
    for compiler in ["cc", CPP] {
        assert_eq!(prints(compiler, "words", &statements), wanted);
    }
}

/// The header has the version, and the crate and the changelog the same.
#[test]
fn the_version_is_the_header_s_everywhere() {
    let header = header();
    let line = header
        .lines()
        .find_map(|line| line.strip_prefix("#define LEXONDAR_VERSION "));
    let version = line.expect("a version").trim_matches('"');
    assert_eq!(version, lexondar::VERSION);
    let changes = std::fs::read_to_string(format!("{ROOT}/CHANGELOG.md")).expect("the changelog");
    let newest = changes.lines().find_map(|line| line.strip_prefix("## "));
    assert_eq!(
        newest.and_then(|line| line.split(' ').next()),
        Some(version)
    );
}
