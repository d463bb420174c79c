//! What the header makes a compiler refuse: an ignored result, another target,
//! a result of another size.

use crate::compiler::{check, CPP};

/// A program whose body is these lines.
fn body(lines: &str) -> String {
    format!(
        "#include \"lexondar.h\"\n\
         static uint16_t work[LEXONDAR_WORK];\n\
         static uint16_t result[LEXONDAR_REPORT];\n\
         int main(void) {{\n{lines}\nreturn 0;\n}}\n"
    )
}

/// A call of each question, with empty texts and lists.
const CALLS: [&str; 8] = [
    "lexondar_fit((const uint8_t *)\"\", 0, 0, 0, work, LEXONDAR_WORK)",
    "lexondar_verdict((const uint8_t *)\"\", 0, work, LEXONDAR_WORK)",
    "lexondar_run((const uint8_t *)\"\", 0, 0, work, LEXONDAR_WORK)",
    "lexondar_authority((const uint8_t *)\"\", 0, 0, 0, work, LEXONDAR_WORK, result, LEXONDAR_AUTHORITY)",
    "lexondar_group((const uint8_t *)\"\", 0, 0, result, 0, work, LEXONDAR_WORK, result, LEXONDAR_AUTHORITY)",
    "lexondar_report((const uint8_t *)\"\", 0, 0, work, LEXONDAR_WORK, result, LEXONDAR_REPORT)",
    "lexondar_form((const uint8_t *)\"\", 0, 0, work, LEXONDAR_WORK)",
    "lexondar_bound((const uint8_t *)\"\", 0, work, LEXONDAR_WORK)",
];

/// Each version of C and C++ by which the header is read.
const LANGUAGES: [(&str, &str); 7] = [
    ("cc", "-std=c99"),
    ("cc", "-std=c11"),
    ("cc", "-std=c2x"),
    (CPP, "-std=c++98"),
    (CPP, "-std=c++11"),
    (CPP, "-std=c++17"),
    (CPP, "-std=c++20"),
];

#[test]
fn the_headers_have_no_warning_in_any_version_of_c_and_cpp() {
    let used: String = CALLS
        .iter()
        .map(|call| format!("if ({call}.refusal == LEXONDAR_ANSWERED) return 1;\n"))
        .collect();
    let source = body(&used).replace("lexondar.h", "lexondar_words.h");
    for (compiler, standard) in LANGUAGES {
        let said = check(compiler, &[standard, "-pedantic"], &source);
        assert_eq!(said, Ok(()), "{standard}");
    }
}

#[test]
fn an_ignored_result_does_not_compile_in_c_or_cpp() {
    for (compiler, standard) in LANGUAGES {
        for call in CALLS {
            let said = check(compiler, &[standard], &body(&format!("{call};")));
            let said = said.expect_err(call);
            assert!(said.contains("unused-result"), "{standard}: {said}");
        }
    }
}

#[test]
fn another_target_does_not_compile() {
    let targets: [&[&str]; 4] = [&["-m32"], &["-mx32"], &["-U__x86_64__"], &["-D_WIN32"]];
    for words in targets {
        for compiler in ["cc", CPP] {
            let said = check(compiler, words, "#include \"lexondar.h\"\n");
            let said = said.expect_err("another target");
            let wanted = "is code for x86-64 with 64-bit pointers and the System V ABI";
            assert!(said.contains(wanted), "{words:?}: {said}");
        }
    }
}

/// Where a number of a result has another size, so has the result.
#[test]
fn a_result_of_another_size_does_not_compile() {
    let source = "#include <stdint.h>\n#define uint32_t uint64_t\n#include \"lexondar.h\"\n";
    for (compiler, standard) in LANGUAGES {
        let said = check(compiler, &[standard], source).expect_err(standard);
        for result in [
            "fit",
            "verdict",
            "run",
            "authority",
            "report",
            "form",
            "bound",
        ] {
            let name = format!("lexondar_{result}_result");
            assert!(said.contains(&name), "{standard}, {result}: {said}");
        }
    }
}
